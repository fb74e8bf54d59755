"""The command `flarecomb`: runs the proved programs and says in plain words what they answered."""
