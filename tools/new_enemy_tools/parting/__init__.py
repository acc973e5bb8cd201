"""An audit in parts: traces that are cut by object, and reports that are merged. docs/SCALE.md says what for.

The rule of the cut. An entry is a line of JSON whose `kind` is `check` or `content` and whose `goal` is a fact (docs/FORMATS.md); of a repeated
key the last counts. Its object, namespace, `:` and object id of the goal in UTF-8 without JSON's escapes, is hashed by BLAKE2b with a digest of
8 bytes and no key. The digest is a number, its first byte the most significant; the part is its remainder by N, which is from 1 to 999, plus 1.
Of 16 parts `doc:readme` is in part 4, `doc:a` in 15. The line stands in that part, and is blank in the others. Any other line stands in every
part, also one that can't be read. A record of evidence stands in the part of its entry; one that names none, or can't be read, in every part. A
trace ends before a line `---`. Behind a line longer than 2^20 bytes nothing is read.

partK.trace, partK.evidence: part K, from 1, with as many lines as the whole; each ends in a newline.
manifest.json: `format`, 2; `cut`, a hash of N and of all lines; `parts`; `lines`; of each part `entries`; `traces` and `evidence` (null where
there was none), of each file its bytes and its BLAKE2b. It is written last. Before a part is audited its files must be those of the manifest.
partK.report: what the program said of part K: a head of six lines, an empty line, standard output and standard error. The head is

    part 3 of 16
    cut 776e863a5fe5a4476b0a12cae5d38040
    entries 6840
    status 1
    output 215
    error 0

`entries` is what the cut gave the part, `output` and `error` are bytes, a `status` below 0 is the signal that killed the program.
"""
