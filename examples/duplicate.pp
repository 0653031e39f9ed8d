# Refused: a title may stand once in a catalog.
notify { 'a': }
notify { 'a': }
