"""Reads the tables of grammars (crates/NAME/specs/Table.antt), and makes what their checks go by.

`terms` reads terms and definitions, `rules` has the rules that a table is made of, `table` reads a table, `sets` finds its sets
and ranks, `lookahead` what its tests need, and `written` is the text of Sets.antt. docs/GRAMMARS.md says what all this means.
"""
