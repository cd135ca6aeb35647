"""Pages for people: HTML to tables, tables to pictures. tools/README.md says how."""
