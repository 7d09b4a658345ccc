"""Two population trees counted against each other, four populations at a time, by a library that is proved to count right.

    >>> import leskwyn
    >>> c = leskwyn.compare("(Azores,(Bute,Coll),Foula,(Lundy,Texel));", "(Azores,Bute,(Coll,Foula),(Lundy,Texel));")
    >>> c.distance, c.sets_of_four, c.robinson_foulds
    (7, 15, 2)

compare(a, b)        the figures of two trees, a Comparison
against(a, trees)    one tree against many, a list of them
matrix(trees)        the distances of all pairs, a square of numbers
nearest(trees)       the tree nearest to all of them, a NearestTree
three_trees(a, b, c) three trees side by side, and which two are closest, a ThreeTrees
why(a, b, names)     why two trees part four populations alike or differently, an Evidence
influence(a, b)      which populations drive the distance of two trees, an Influence
canonical_copy(a)    a tree in the form that all trees with its splits have, a CanonicalCopy
same(a, b)           whether two trees are the same
exchange_tallies(a)  how far a tree moves if two populations are mixed up, an ExchangeTallies
exchange_distance(a, x, y)
                     how far it moves if these two are
view(a, b, levels, viewer)
                     what a viewer may see of two trees of which some populations are confidential, a View
view_topology(a, levels, viewer, names)
                     how a tree parts four populations that a viewer may see, a Topology

A tree is Newick text, the path of a file, or a tree object of DendroPy or ETE. What is turned away is a Refusal, and what
cannot be read a Trouble; both are a LeskwynError, with the fields number and reason. docs/COMMANDS.md has the commands
(python3 -m leskwyn) and what the figures are called there.
"""
import sys

__version__ = "0.15.0"

# This file and __main__.py are written so that old Pythons can read them, and say a sentence.
if sys.version_info >= (3, 10):
    from leskwyn.api import (against, canonical_copy, compare, exchange_distance, exchange_tallies, influence, matrix, nearest,
                             same, three_trees, view, view_topology, why)
    from leskwyn.copies import CanonicalCopy
    from leskwyn.errors import LeskwynError, Refusal, Trouble
    from leskwyn.evidence import Evidence, Witness
    from leskwyn.exchanges import Exchange, ExchangeTallies
    from leskwyn.figures import Comparison
    from leskwyn.holding import Dropped, Holding, Influence
    from leskwyn.median import NearestTree, TreeSum
    from leskwyn.three import ThreeTrees, TreePair
    from leskwyn.views import Topology, View
    __all__ = ["CanonicalCopy", "Comparison", "Dropped", "Evidence", "Exchange", "ExchangeTallies", "Holding", "Influence",
               "LeskwynError", "NearestTree", "Refusal", "ThreeTrees", "Topology", "TreePair", "TreeSum", "Trouble", "View",
               "Witness", "against", "canonical_copy", "compare", "exchange_distance", "exchange_tallies", "influence", "matrix",
               "nearest", "same", "three_trees", "view", "view_topology", "why"]
elif sys.argv[:1] not in (["-m"], ["-c"]):
    raise ImportError("leskwyn needs Python 3.10 or newer; this is Python %d.%d" % sys.version_info[:2])
