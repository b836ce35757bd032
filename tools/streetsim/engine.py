"""The engine in this process, under the name that programs of users have for it."""
from streetsim.base.engine import *
