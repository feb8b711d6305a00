"""Reports of races for people and for tools, from a trace, its codes, and what `hgd` says of them."""
