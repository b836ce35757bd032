"""A client of streetsim with a method for each command, under the name that programs of users have for it."""
from streetsim.base.client import *
