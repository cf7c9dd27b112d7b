"""Definitions of a page, read from `specs/` and computed: tools/define prints what they give."""
