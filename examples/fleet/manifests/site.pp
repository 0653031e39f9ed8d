# Web servers export themselves as hosts, and the load balancer collects them.
class web {
  @@host { $trusted['certname']: ip => $facts['ip'], tag => 'web' }
  file { '/etc/motd': content => "hello from ${trusted['certname']}\n" }
}
node 'lb' {
  Host <<| tag == 'web' |>>
}
node default {
  include web
}
