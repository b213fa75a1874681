"""An agent for Serf's user events and queries, written from docs/SPEC.md.

It is plain Python 3 and needs no other package. Each of its named switches makes one of its bodies wrong. So if you write an agent,
you can see what a comparison with the reference finds.
"""
