# A client without encryption: ruby-mongo through the proxy. Use: ruby ruby_client.rb HOST:PORT OPTIONS
require 'mongo'
Mongo::Logger.logger.level = Logger::FATAL

def want(is, what)
  abort "#{what} isn't so" unless is
end

def refused(*parts)
  yield
  want false, 'a refusal'
rescue Mongo::Error => error
  said = error.message
  want parts.all? { |part| said.include? part }, "'#{said}' says #{parts}"
  want !said.include?('SEKRET'), 'a value that is not told'
end

# Options stand in a hash: this driver's reader of them is of an older Ruby.
options = ARGV[1].to_s.split('=')
options = { 'replicaSet' => { replica_set: options[1] },
            'compressors' => { compressors: [options[1]] },
            'authMechanism' => { user: 'user', password: 'pencil', auth_mech: options[1] == 'PLAIN' ? :plain : :scram }
          }[options[0]] || {}
client = Mongo::Client.new([ARGV[0].split('@').last], options)
people = client.use(:hr)[:people]
people.insert_many((0...7).map { |i| { _id: i, ssn: 'SEKRET-1', salary: "SEKRET-#{i}", n: i } })
want people.find(ssn: 'SEKRET-1').map { |d| d['salary'] } == (0...7).map { |i| "SEKRET-#{i}" }, 'what was found'
want people.update_one({ ssn: 'SEKRET-1', n: 3 }, '$set' => { salary: 'SEKRET-new' }).modified_count == 1, 'an update'
want people.find(_id: 3).first['salary'] == 'SEKRET-new', 'what was updated'
done = people.bulk_write([{ insert_one: { _id: 20, ssn: 'SEKRET-2' } },
                          { update_one: { filter: { _id: 20 }, update: { '$set' => { salary: 'SEKRET-b' } } } },
                          { delete_one: { filter: { ssn: 'SEKRET-1', n: 6 } } }])
want [done.inserted_count, done.modified_count, done.deleted_count] == [1, 1, 1], 'a bulk write'
put = people.update_one({ ssn: 'SEKRET-9' }, { '$set' => { salary: 5 } }, upsert: true)
want put.upserted_id && people.find(ssn: 'SEKRET-9').first['salary'] == 5, 'an upsert'
want people.delete_one(ssn: 'SEKRET-2').deleted_count == 1, 'a delete'
want people.find(ssn: 'SEKRET-1').count == 6, 'a count'
if ARGV[1].include? 'replicaSet' # a transaction by its commands: driver 2.5 has no call for one
  within = { lsid: { id: BSON::Binary.new('0123456789abcdef', :uuid) }, txnNumber: BSON::Int64.new(1), autocommit: false }
  begun = { insert: 'people', documents: [{ _id: 30, ssn: 'SEKRET-t' }], startTransaction: true }
  client.use(:hr).database.command(begun.merge(within))
  client.use(:admin).database.command({ commitTransaction: 1 }.merge(within))
  want people.find(ssn: 'SEKRET-t').first['_id'] == 30, 'what was committed'
end
refused('OperatorOnProtected', 'filter.ssn.$gt') { people.find(ssn: { '$gt' => 'SEKRET' }).to_a }
refused('TypeNotAllowed', 'documents.0.ssn') { people.insert_one(ssn: nil, salary: 'SEKRET') }
refused('Unsupported', 'other') { client.use(:other)[:people].insert_one(ssn: 'SEKRET') }
