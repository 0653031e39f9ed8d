define vhost($port = 80) {
  notice("${title} listens on ${port}")
  file { "/etc/vhosts/${title}": content => "listen ${port}\n" }
}
class web($names) {
  $names.each |$name| { vhost { $name: port => 8080 } }
}
class { 'web': names => ['a', 'b'] }
