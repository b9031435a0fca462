"""The editor of a plan: a page that shows and changes a timing sheet (docs/EDITOR.md)."""
