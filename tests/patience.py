"""How long the tests wait for what has to come: on a busy machine PATIENCE=10 in the environment has them wait ten times as long."""
import os


def seconds(ordinary):
    return ordinary * int(os.environ.get("PATIENCE", "1"))
