"""Cases of the libraries, with answers worked out from docs/SPECIFICATION.md alone.

tables.py has the reference tables and the refusal of one table, shapes.py trees of many shapes, newick.py named trees and
their texts, evidence.py what shows how a tree parts four labels, influence.py the sets of four that hold each name, copies.py the
canonical copy of a tree, exchanges.py how far two exchanged names move one, views.py what a viewer may see, three.py three trees
side by side, nearest.py the tree nearest to all of several; trees.py, pairs.py and quartets.py have the cases of the program examples
in three groups, lines.py what a line of them is. Nothing here knows how the libraries work.
tests/example_cases.py writes the cases; the other tests import tables and methods from here.
"""
