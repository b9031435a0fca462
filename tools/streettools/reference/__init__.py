"""What a user looks up, made from its sources: docs/COMMANDS.md, the manual pages, docs/DEFINITIONS.md."""
