"""What keeps the repository in order, by its texts alone: contracts, promises, wrong bodies, tables of the pages, sizes, and what the gate costs."""
