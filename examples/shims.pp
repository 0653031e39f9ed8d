# What modules take from stdlib and have not in the language: kinds in Ruby as defines with no body, functions in the language.
# `./site import CODE FOLDER --shims` puts those that a site needs into its main manifest. Copy what you need, and add your own.

define anchor() { }

# A list of what is no list; a hash as its keys and values in turn.
function any2array($value) {
  case $value {
    Array: { $value }
    Hash: { flatten($value.map |$key, $held| { [$key, $held] }) }
    '', Undef: { [] }
    default: { [$value] }
  }
}

# Hashes joined; of equal keys the last one counts.
function merge($first, $second = {}, $third = {}, $fourth = {}) {
  [$second, $third, $fourth].reduce($first) |$all, $one| { if $one =~ Hash { $all + $one } else { $all } }
}

# Each member, or each key of a hash, with a text in front of it.
function prefix($collection, $text = '') {
  if $collection =~ Hash {
    $collection.reduce({}) |$all, $pair| { $all + { "${text}${pair[0]}" => $pair[1] } }
  } else {
    $collection.map |$one| { "${text}${one}" }
  }
}

# Each member, or each key of a hash, with a text behind it.
function suffix($collection, $text = '') {
  if $collection =~ Hash {
    $collection.reduce({}) |$all, $pair| { $all + { "${pair[0]}${text}" => $pair[1] } }
  } else {
    $collection.map |$one| { "${one}${text}" }
  }
}

# Lists and values joined to one list.
function concat($first, $second = [], $third = [], $fourth = []) {
  $first + $second + $third + $fourth
}

# The first of these values that is neither Undef nor the empty text.
function pick($first = undef, $second = undef, $third = undef, $fourth = undef) {
  $found = [$first, $second, $third, $fourth].filter |$one| { $one =~ NotUndef and $one != '' }
  if empty($found) { fail('pick(): must receive at least one non empty value') }
  $found[0]
}

# Whether a hash has a key.
function has_key($hash, $key) {
  $key in keys($hash)
}

# Whether a list has a member, or all members of another list.
function member($list, $wanted) {
  if $wanted =~ Array { $wanted.all |$one| { $one in $list } } else { $wanted in $list }
}
