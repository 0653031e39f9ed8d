/* Two resources: the second has no message,
   so the agent will print its title. */
notify { 'motd': message => 'This machine\'s configuration is kept by Puppet' }
notify { 'maintenance window: Sunday, 02:00': }
