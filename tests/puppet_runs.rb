# Applies manifests by Puppet's own library, in one process, and tells what became of each resource: for `tests/runs --puppet`.
#
# Each line of standard input is the JSON text of a manifest. Each line of output is, in the order of the turns, a list of
# [reference, "skipped" | "failed" | "changed" | "unchanged", whether it was refreshed]; or {"fault": TEXT}.
require "json"
require "puppet"
require "tmpdir"

# The order in which resources have their turns.
module Turns
  REFS = []

  def eval_resource(resource, ancestor = nil)
    REFS << resource.ref unless resource.is_a?(Puppet::Type.type(:whit))
    super
  end
end
Puppet::Transaction.prepend(Turns)

def status_of(status)
  return "skipped" if status.skipped
  return "failed" if status.failed || status.failed_to_restart

  status.changed ? "changed" : "unchanged"
end

def applied(manifest)
  Turns::REFS.clear
  environment = Puppet::Node::Environment.create(:production, [])
  Puppet.override(environments: Puppet::Environments::Static.new(environment), current_environment: environment,
                  loaders: Puppet::Pops::Loaders.new(environment)) do
    Puppet[:code] = manifest
    catalog = Puppet::Parser::Compiler.compile(Puppet::Node.new("n", environment: environment)).to_ral
    catalog.finalize
    report = Puppet::Transaction::Report.new
    catalog.apply(report: report)
    turns = Turns::REFS.uniq.select { |ref| ref.start_with?("Exec[", "Notify[") }
    turns.map { |ref| [ref, status_of(report.resource_statuses[ref]), report.resource_statuses[ref].restarted ? true : false] }
  end
rescue Puppet::Error => error
  { "fault" => error.message }
end

Dir.mktmpdir do |folder|
  Puppet.initialize_settings(%w[confdir vardir logdir rundir publicdir].flat_map { |name| ["--#{name}", folder] })
  $stdin.each_line { |line| puts JSON.generate(applied(JSON.parse(line, quirks_mode: true))) }
end
