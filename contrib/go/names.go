package fle

// names has the names of docs/errors.tsv by their numbers, each table of it by its own name.
var names = map[string]map[uint32]string{
	"status": {
		// made from errors.tsv: status
		0: "Done",
		1: "Refused",
		2: "Words",
		3: "Malformed",
		4: "Setup",
		5: "ReadFault",
		6: "WriteFault",
		7: "EntropyFault",
		8: "Memory",
		9: "Limit",
		// end
	},
	"call": {
		// made from errors.tsv: call
		10: "NoRoom",
		11: "NotOpen",
		12: "NoId",
		13: "NoInfo",
		14: "NoNames",
		15: "Flags",
		// end
	},
	"reason": {
		// made from errors.tsv: reason
		1:  "NotACommand",
		2:  "BadField",
		3:  "WrongDb",
		4:  "View",
		5:  "TypeNotAllowed",
		6:  "AlreadyEncrypted",
		7:  "ArrayOnPath",
		8:  "BelowProtected",
		9:  "PositionalOnPath",
		10: "RandomCompared",
		11: "OperatorOnProtected",
		12: "PrefixCompared",
		13: "Pipeline",
		14: "FieldNotAllowed",
		15: "RenameMixed",
		16: "KeyMissing",
		17: "KeyNotLocal",
		18: "KeyDamaged",
		19: "PayloadShape",
		20: "TagMismatch",
		21: "Padding",
		22: "Plain",
		23: "PointerBad",
		25: "ReplyShape",
		26: "ReplyDiffers",
		27: "ReplyMissing",
		28: "NotText",
		// end
	},
	"input": {
		// made from errors.tsv: input
		1: "Short",
		2: "Length",
		3: "Tag",
		4: "NoEnd",
		5: "Bool",
		6: "Deep",
		7: "Extra",
		// end
	},
	"limit": {
		// made from errors.tsv: limit
		1: "Document",
		2: "Output",
		3: "Stream",
		// end
	},
	"file": {
		// made from errors.tsv: file
		1:  "Missing",
		2:  "TooLong",
		30: "Bson",
		31: "Shape",
		32: "Twice",
		33: "Syntax",
		34: "Form",
		// end
	},
	"key": {
		// made from errors.tsv: key
		20: "Bson",
		21: "Id",
		22: "AltNames",
		23: "Material",
		24: "Provider",
		25: "IdTwice",
		26: "NameTwice",
		27: "TooMany",
		// end
	},
	"schema": {
		// made from errors.tsv: schema
		41: "Keyword",
		42: "Shape",
		43: "Misplaced",
		44: "Sibling",
		45: "NoKey",
		46: "NoAlgorithm",
		47: "Algorithm",
		48: "TypeName",
		49: "DeterministicType",
		50: "Name",
		51: "TooMany",
		54: "DeterministicPointer",
		// end
	},
	"master": {
		// made from errors.tsv: master
		10: "Length",
		11: "Base64",
		// end
	},
}
