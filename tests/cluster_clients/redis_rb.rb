# Counts with redis-rb (Debian's package ruby-redis): see redis_py.py, which does the same.
# usage: ruby redis_rb.rb PORT SECONDS

require 'redis'

KEYS = (0...100).flat_map { |number| ["count:#{number}", "{counts}:#{number}"] }

def cluster(port)
  Redis.new(cluster: ["redis://127.0.0.1:#{port}"])
rescue Redis::BaseError
  sleep 0.002
  retry
end

$stdout.sync = true
puts 'ready'
client = cluster(ARGV[0].to_i)
rounds = wrong = 0
finish = Process.clock_gettime(Process::CLOCK_MONOTONIC) + ARGV[1].to_f
while Process.clock_gettime(Process::CLOCK_MONOTONIC) < finish
  rounds += 1
  wrong += KEYS.count { |key| client.incr(key) != rounds }
end
held = KEYS.sum { |key| client.get(key).to_i }
puts "#{rounds} rounds, #{wrong} wrong, #{held} held"
