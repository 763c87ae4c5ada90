// A client without encryption: node-mongodb through the proxy. Use: node node_client.js HOST:PORT OPTIONS
'use strict'
const assert = require('assert')
const { MongoClient } = require('mongodb')

async function refused (promise, ...parts) {
  const error = await promise.then(() => null, error => error)
  assert(error && error.code === 8000, String(error))
  assert(parts.every(part => error.message.includes(part)) && !error.message.includes('SEKRET'), error.message)
}

async function count (people) {
  assert.strictEqual(await people.find({ ssn: 'SEKRET-1' }).count(), 6)
  assert.strictEqual(await people.estimatedDocumentCount(), 7)
  await refused(people.countDocuments({ ssn: 'SEKRET-1' }), 'NotACommand', 'aggregate')
}

async function useATransaction (client, people) {
  const session = client.startSession()
  session.startTransaction()
  await people.insertOne({ _id: 30, ssn: 'SEKRET-t' }, { session })
  assert.strictEqual((await people.findOne({ ssn: 'SEKRET-t' }, { session }))._id, 30)
  await session.commitTransaction()
  session.endSession()
}

async function main (address, options) {
  const client = new MongoClient(`mongodb://${address}/?${options}`, { useUnifiedTopology: true })
  await client.connect()
  const people = client.db('hr').collection('people')
  const documents = [0, 1, 2, 3, 4, 5, 6].map(i => ({ _id: i, ssn: 'SEKRET-1', salary: `SEKRET-${i}`, n: i }))
  assert.strictEqual((await people.insertMany(documents)).insertedCount, 7)
  assert.deepStrictEqual(await people.find({ ssn: 'SEKRET-1' }).toArray(), documents)
  const changed = await people.updateOne({ ssn: 'SEKRET-1', n: 3 }, { $set: { salary: 'SEKRET-new' } })
  assert.strictEqual(changed.modifiedCount, 1)
  assert.strictEqual((await people.findOne({ _id: 3 })).salary, 'SEKRET-new')
  const done = await people.bulkWrite([
    { insertOne: { document: { _id: 20, ssn: 'SEKRET-2' } } },
    { updateOne: { filter: { _id: 20 }, update: { $set: { salary: 'SEKRET-b' } } } },
    { deleteOne: { filter: { ssn: 'SEKRET-1', n: 6 } } }])
  assert.deepStrictEqual([done.insertedCount, done.modifiedCount, done.deletedCount], [1, 1, 1])
  const put = await people.updateOne({ ssn: 'SEKRET-9' }, { $set: { salary: 5 } }, { upsert: true })
  assert.strictEqual(put.upsertedCount, 1)
  assert.strictEqual((await people.findOne({ ssn: 'SEKRET-9' })).salary, 5)
  assert.strictEqual((await people.deleteOne({ ssn: 'SEKRET-2' })).deletedCount, 1)
  await count(people)
  if (options.includes('replicaSet')) await useATransaction(client, people)
  await refused(people.find({ ssn: { $gt: 'SEKRET' } }).toArray(), 'OperatorOnProtected', 'filter.ssn.$gt')
  await refused(people.insertOne({ ssn: null, salary: 'SEKRET' }), 'TypeNotAllowed', 'documents.0.ssn')
  await refused(client.db('other').collection('people').insertOne({ ssn: 'SEKRET' }), 'Unsupported', 'other')
  await client.close()
}

main(process.argv[2], process.argv[3]).catch(error => { console.error(error); process.exit(1) })
