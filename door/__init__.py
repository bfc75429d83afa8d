"""The front door of the twin: what people write, made into lines of the proved programs, and their answers told by name."""
