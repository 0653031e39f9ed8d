# The smallest manifest that says something.
notify { 'hello':
  message => 'Hello from Yaldziet',
}
