# Puppet's own compiler for `tests/random`. A line of standard input is a site as JSON: `files`, `nodes` with their facts, and
# `requests`, the nodes that are compiled one after another. A line of standard output has what each came to.
require 'json'
require 'puppet'
require 'tmpdir'
require 'fileutils'
WORK = Dir.mktmpdir
at_exit { FileUtils.rm_rf(WORK) }
Puppet.initialize_settings(['--confdir', "#{WORK}/conf", '--vardir', "#{WORK}/var", '--environmentpath', "#{WORK}/envs"])
Puppet[:strict_variables] = true
Puppet[:strict] = :error
Puppet[:storeconfigs] = true
Puppet::Util::Log.close_all
Puppet::Util::Log.level = :debug
# what the log functions of the language say; nothing is written
LOGGED = []
module Puppet::Util
  class Log
    class << self
      def newmessage(msg)
        LOGGED << [msg.level.to_s, msg.message.to_s] if msg.source.to_s.start_with?('Scope(')
      end
    end
  end
end

def plain(value)
  case value
  when Array then value.map { |one| plain(one) }
  when Hash then { '__ptype' => 'Hash', '__pvalue' => value.flat_map { |key, one| [key.is_a?(Symbol) ? key.to_s : key, plain(one)] } }
  when Puppet::Resource then value.ref
  when Symbol then value == :undef ? nil : value.to_s
  when String, Integer, true, false, nil then value
  else value.to_s
  end
end

def parameters(one)
  defined = one.type == 'Class' || one.resource_type.is_a?(Puppet::Resource::Type)
  implied = [defined ? :name : one.resource_type&.key_attributes&.first]
  one.parameters.reject { |key, value| implied.include?(key) && value == one.title }
     .to_h { |key, param| [key.to_s, plain(param.respond_to?(:value) ? param.value : param)] }
end

# What each node has exported, which stands in the place of PuppetDB.
Exported = Struct.new(:node, :type, :title, :tags, :parameters, :file, :line)
$sets = {}

def matches(filter, one)
  return true if filter.nil?
  left, op, right = filter
  case op
  when 'and' then matches(left, one) && matches(right, one)
  when 'or' then matches(left, one) || matches(right, one)
  when '==', '!='
    found =
      if left == 'tag' then one.tags.include?(right.to_s.downcase)
      elsif left == 'title' then one.title == right
      else
        it = one.parameters[left.to_sym]
        it.is_a?(Array) ? it.include?(right) : it == right
      end
    op == '==' ? found : !found
  else raise "filter #{filter.inspect}"
  end
end

Puppet::Resource.indirection.singleton_class.define_method(:search) do |type, options|
  $sets.sort.reject { |node, _| node == options[:host] }.flat_map do |node, set|
    set.select { |one| one.type == type && matches(options[:filter], one) }.map do |one|
      scope = options[:scope]
      made = Puppet::Parser::Resource.new(one.type, one.title, scope: scope, source: scope.source, exported: true)
      one.parameters.each { |name, value| made.set_parameter(name, value) unless name == :tag }
      made.tag(*one.tags)
      made.virtual = true
      made.collector_id = "#{node}/#{one.type}/#{one.title}"
      made.file = one.file
      made.line = one.line
      made
    end
  end
end

# The relationships of what stands in the catalog: chains are parameters by then.
def edges(catalog, kept)
  relations = []
  kept.each do |one|
    { before: [true, false], notify: [true, true], require: [false, false], subscribe: [false, true] }.each do |name, (forward, signal)|
      value = one[name]
      [value].flatten.compact.each do |ref|
        next if ref == :undef
        other = catalog.resource(ref.respond_to?(:ref) ? ref.ref : ref.to_s)
        # the compiler lets a relationship with what stays virtual pass, and the agent refuses it
        raise ArgumentError, "Could not find resource '#{ref}' for relationship" if other.nil? || other.virtual
        other = other.ref
        relations << (forward ? [one.ref, other, signal] : [other, one.ref, signal])
      end
    end
  end
  relations
end

def compiled(environment, loaders, name, facts)
  LOGGED.clear
  node = Puppet::Node.new(name, environment: environment, facts: Puppet::Node::Facts.new(name, Marshal.load(Marshal.dump(facts))))
  node.add_server_facts({})
  node.merge(facts)
  node.trusted_data = { 'authenticated' => 'remote', 'certname' => name, 'extensions' => {}, 'external' => {},
                        'hostname' => name.split('.').first, 'domain' => name.include?('.') ? name.split('.', 2).last : nil }
  catalog = Puppet.override(current_environment: environment, loaders: loaders, trusted_information: nil) do
    Puppet::Parser::Compiler.compile(node)
  end
  kept = catalog.resources.reject { |one| one.virtual }
  exports = catalog.resources.select(&:exported).map do |one|
    values = one.parameters.to_h { |key, param| [key, param.respond_to?(:value) ? param.value : param] }.reject { |_, v| v.nil? || v == :undef }
    Exported.new(name, one.type, one.title, one.tags.to_a.sort, values, one.file, one.line)
  end
  rows = kept.reject { |one| %w[Stage Node].include?(one.type) || one.ref == 'Class[Settings]' }.map do |one|
    into = catalog.edges.select { |edge| edge.target.ref == one.ref }.map { |edge| edge.source.ref }.reject { |ref| ref.start_with?('Stage[') }
    { 'type' => one.type, 'title' => one.title, 'tags' => one.tags.to_a.sort, 'in' => into, 'attrs' => parameters(one) }
  end
  $sets[name] = exports
  { 'resources' => rows, 'edges' => edges(catalog, kept), 'logs' => LOGGED.dup,
    'exports' => exports.map { |one| { 'type' => one.type, 'title' => one.title, 'tags' => one.tags, 'attrs' => one.parameters.to_h { |k, v| [k.to_s, plain(v)] } } } }
rescue Exception => error # rubocop:disable Lint/RescueException
  raise if error.is_a?(Interrupt) || error.is_a?(SystemExit)
  answer = { 'error' => error.message.lines.first.to_s.strip }
  answer['trace'] = error.backtrace.first(3) unless error.is_a?(Puppet::Error) || error.is_a?(ArgumentError)
  answer
end

STDIN.each_line.with_index do |line, number|
  asked = JSON.parse(line)
  top = "#{WORK}/envs#{number}"
  asked['files'].each do |path, text|
    file = path.start_with?('global/') ? "#{top}/#{path}" : "#{top}/production/#{path}"
    FileUtils.mkdir_p(File.dirname(file))
    File.write(file, text)
  end
  FileUtils.mkdir_p("#{top}/production/modules")
  File.write("#{top}/production/environment.conf", "modulepath = modules\n")
  Puppet[:hiera_config] = "#{top}/global/hiera.yaml"
  Puppet[:environmentpath] = top
  $sets = {}
  environments = Puppet::Environments::Directories.new(top, [])
  answers = Puppet.override(environments: environments) do
    asked['requests'].map do |name|
      environment = environments.get!('production')
      compiled(environment, Puppet::Pops::Loaders.new(environment), name, asked['nodes'][name])
    end
  end
  puts JSON.generate(answers)
  $stdout.flush
  FileUtils.rm_rf(top)
end
