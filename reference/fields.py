"""The fields that a library takes in commands, each with what it holds: of insert, update, delete and find too, where a
library sends nothing of a field that isn't listed.

By MongoDB's manual (Database Commands), the Go driver 1.8.4 (x/mongo/driver/operation, mongo/index_view.go) and, for
the commands that pass, libmongocrypt 1.5.2 (mongocrypt-ctx-encrypt.c). What a field holds is a word of library.py's.
"""


def table(**holds):
    """A dictionary from fields to what they hold, given the other way round, as texts of names."""
    return {name: what for what, names in holds.items() for name in names.split()}


# Documents of MongoDB's own names; and those of the names that hold a document or an array.
OWN = {name: names.split() for name, names in {
    "lsid": "id uid", "$clusterTime": "clusterTime signature", "$readPreference": "mode tags maxStalenessSeconds hedge",
    "readConcern": "level afterClusterTime atClusterTime provenance",
    "writeConcern": "w wtimeout wtimeoutMS j journal fsync provenance",
    "collation": "locale caseLevel caseFirst strength numericOrdering alternate maxVariable normalization backwards",
    "cursor": "batchSize", "topologyVersion": "processId counter", "options": "skipEmptyExchange",
    "timeseries": "timeField metaField granularity bucketMaxSpanSeconds bucketRoundingSeconds"}.items()}
BRANCHES = ["signature", "tags", "hedge"]

# What any command may have; what one that reads a collection may.
ENVELOPE = table(
    word="$db txnNumber autocommit startTransaction maxTimeMS comment apiVersion apiStrict apiDeprecationErrors",
    own="lsid $clusterTime $readPreference readConcern writeConcern")
READING = {**ENVELOPE, **table(hint="hint", own="collation")}

# `read`: what the rules of insert, update, delete and find judge.
LISTED = {
    "insert": {**ENVELOPE, **table(word="insert ordered bypassDocumentValidation", read="documents")},
    "update": {**ENVELOPE, **table(word="update ordered bypassDocumentValidation", read="updates let")},
    "delete": {**ENVELOPE, **table(word="delete ordered", read="deletes let")},
    "find": {**READING, **table(
        read="filter projection min max let", keys="sort",
        word="find limit skip batchSize singleBatch returnKey showRecordId tailable awaitData noCursorTimeout"
             " oplogReplay snapshot maxScan allowPartialResults allowDiskUse")},
    "count": {**READING, **table(filter="query", word="count limit skip")},
    "findAndModify": {**READING, **table(
        filter="query", update="update", keys="sort fields",
        word="findAndModify remove new upsert bypassDocumentValidation")},
    "distinct": {**READING, **table(filter="query", path="key", word="distinct")},
    "createIndexes": {**ENVELOPE, **table(indexes="indexes", word="createIndexes commitQuorum")},
    "aggregate": {**READING, **table(
        pipeline="pipeline", own="cursor", word="aggregate allowDiskUse bypassDocumentValidation explain")},
    "create": {**ENVELOPE, **table(
        own="collation timeseries",
        word="create capped size max autoIndexId expireAfterSeconds validationLevel validationAction")},
    "collMod": {**ENVELOPE, **table(
        word="collMod validationLevel validationAction cappedSize cappedMax expireAfterSeconds")},
}
REQUIRED = {"distinct": ["key"], "aggregate": ["pipeline"], "createIndexes": ["indexes"]}
ITEMS = {"update": table(read="q u c arrayFilters", word="upsert multi", own="collation", hint="hint"),
         "delete": table(read="q", word="limit", own="collation", hint="hint")}
# What else create and collMod may have where a collection has no rules: nothing of it speaks of another collection.
UNRULED = ["validator", "storageEngine", "indexOptionDefaults", "clusteredIndex", "index",
           "changeStreamPreAndPostImages"]

INDEX = table(
    index_keys="key", keys="weights wildcardProjection", own="collation",
    word="name v unique sparse hidden background dropDups expireAfterSeconds prepareUnique default_language"
         " language_override textIndexVersion 2dsphereIndexVersion bits min max bucketSize")
INDEX_TYPES = ["text", "hashed", "2d", "2dsphere", "geoHaystack"]

STAGES = table(filter="$match", keys="$sort $project", number="$limit $skip", new_name="$count", names="$unset",
               group="$group")
# Stages that read their own collection alone: a pipeline without rules has these.
OWN_STAGES = [*STAGES, "$addFields", "$set", "$unwind", "$replaceRoot", "$replaceWith", "$sample", "$bucket",
              "$bucketAuto", "$sortByCount", "$redact", "$indexStats", "$geoNear"]

# Commands of which nothing is sealed: each holds no value of a collection's fields.
PASSING = {name: {**ENVELOPE, name: "word", **more} for name, more in {
    **{name: {} for name in """ping buildInfo startSession drop dropDatabase isMaster ismaster getnonce logout
        getCmdLineOpts getLog""".split()},
    **{name: table(list=name) for name in """endSessions refreshSessions killSessions killAllSessions
        killAllSessionsByPattern""".split()},
    "abortTransaction": table(any="recoveryToken"), "commitTransaction": table(any="recoveryToken"),
    "getMore": table(word="collection batchSize term"), "killCursors": table(list="cursors"),
    "listCollections": table(any="filter", word="nameOnly authorizedCollections", own="cursor"),
    "listDatabases": table(any="filter", word="nameOnly authorizedDatabases"), "listIndexes": table(own="cursor"),
    "dropIndexes": table(hint="index"), "renameCollection": table(word="to dropTarget"),
    "dbStats": table(word="scale freeStorage"), "collStats": table(word="scale"),
    "authenticate": table(word="mechanism user"), "saslContinue": table(word="conversationId payload"),
    "saslStart": table(word="mechanism payload autoAuthorize", own="options"),
    "hello": table(any="client speculativeAuthenticate", list="compression", own="topologyVersion",
                   word="saslSupportedMechs loadBalanced helloOk maxAwaitTimeMS")}.items()}
EXPLAIN = {**ENVELOPE, **table(any="explain", word="verbosity")}
