"""Random input for the rules: commands, schemas, replies, and vaults with sealed documents."""
