"""What ./package packs: a package of Debian's and a wheel, of what was proved."""
