"""A companion to `ec`: people's own data in, questions, pictures and reasons out.

All that is said of a history comes from the replies of the program `ec`, which this
package runs. The package itself proves nothing.
"""

__version__ = "0.1.0"
