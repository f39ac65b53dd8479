"""Filter Netpbm stills by recipes, through the proved library's C interface. Standard library only.

    import hejslopi
    recipe = hejslopi.recipe([{"kind": "binomial", "across": 1, "down": 1, "border": "nearest"}])
    picture, T = hejslopi.filter_file(open("still.pgm", "rb").read(), recipe)

Eleven calls: `read_still`, `write_still`, `read_recipe`, `needs`, `filter_plane`, `filter_file`, `movement`, `verdict`, and the `add`, `remove` and `mean` of a
`Background`, which keeps stills and gives their mean. One that cannot be done raises `Refusal`, with the number in `.number` and its meaning as the text. `recipe` makes a recipe's bytes of a
description, `describe` the reverse, `explain` says what a recipe does, and `movement_picture` shows where something has moved.

The library is made once by `tools/build library` at the top of the repository, and this package makes a shared object of it with the machine's cc, beside
it. HEJSLOPI_LIB_DIR may name another folder of libcapi.a.
"""
from .background import Background, Mean
from .calls import ARCHIVE, PANEL, FilteredFile, FilteredPlane, Limits, Needs, Recipe, Still, filter_file, filter_plane, needs, read_recipe, read_still, write_still
from .describing import describe
from .descriptions import recipe
from .explaining import explain
from .judging import verdict
from .library import LibraryError
from .marking import movement_picture
from .moving import Movement, movement
from .refusals import MEANINGS, Refusal
from .values import Mistake
from .version import VERSION

__version__ = VERSION

__all__ = [
    "ARCHIVE", "Background", "FilteredFile", "FilteredPlane", "LibraryError", "Limits", "MEANINGS", "Mean", "Mistake", "Movement", "Needs", "PANEL", "Recipe", "Refusal",
    "Still", "describe", "explain", "filter_file", "filter_plane", "movement", "movement_picture", "needs", "read_recipe", "read_still", "recipe", "verdict",
    "write_still",
]
