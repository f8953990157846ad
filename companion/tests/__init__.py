"""The tests of ec_history: `python3 -m unittest discover` from companion/."""
