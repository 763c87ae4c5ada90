"""The rules of client-side field level encryption in plain Python; README.md leads through the modules."""
