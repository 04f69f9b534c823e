# Asks a cluster through the client of Debian's package ruby-elasticsearch, and prints what that client saw, as JSON.
#
#     ruby tests/real_client.rb URL
#
# It is no test itself: recorded_real_client.py runs it.

require "elasticsearch"
require "json"

client = Elasticsearch::Client.new(url: ARGV[0], retry_on_failure: 5, reload_on_failure: false)

tried = lambda do |turn|
  turn.call
rescue StandardError => fault
  fault.class.name.split("::").last
end

turns = [
  -> { client.index(index: "carts", id: "d", body: { count: 1 })["result"] },
  -> { client.get(index: "carts", id: "d")["_source"]["count"] },
  -> { client.create(index: "carts", id: "d", body: { count: 2 })["result"] },
  lambda do
    read = client.get(index: "carts", id: "d")
    pair = { if_seq_no: read["_seq_no"], if_primary_term: read["_primary_term"] }
    client.index(index: "carts", id: "d", body: { count: 3 }, **pair)
    client.index(index: "carts", id: "d", body: { count: 4 }, **pair)["result"]
  end,
  lambda do
    body = (0..2).map { |at| { index: { _index: "carts", _id: "b#{at}", data: { count: at } } } }
    client.bulk(body: body + [{ delete: { _index: "carts", _id: "b0" } }])["items"].map { |it| it.values.first["result"] }
  end,
  -> { client.mget(index: "carts", body: { ids: %w[d b1 b0] })["docs"].map { |it| it["found"] } },
  -> { client.delete(index: "carts", id: "d")["result"] },
  -> { client.get(index: "carts", id: "d")["found"] }
]

puts JSON.generate(turns.map { |it| tried.call(it) })
