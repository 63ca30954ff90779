package main

import (
	"encoding/json"
	"errors"
	"strings"

	"sigs.k8s.io/structured-merge-diff/fieldpath"
	"sigs.k8s.io/structured-merge-diff/merge"
	"sigs.k8s.io/structured-merge-diff/schema"
	"sigs.k8s.io/structured-merge-diff/typed"
)

// The replies say what those of ssabench say; only their paths stand in the library's order.

type doneReply struct {
	Added    [][]string `json:"added"`
	Done     string     `json:"done"`
	Managers int        `json:"managers"`
	Modified [][]string `json:"modified"`
	Removed  [][]string `json:"removed"`
}

type conflictsReply struct {
	Conflicts []conflict `json:"conflicts"`
	Fault     int        `json:"fault"`
	Name      string     `json:"name"`
}

type conflict struct {
	Fields    [][]string `json:"fields"`
	Manager   string     `json:"manager"`
	Operation string     `json:"operation"`
}

// faultReply is that of every other refusal. The library has no numbers for what it refuses.
type faultReply struct {
	Fault int    `json:"fault"`
	Name  string `json:"name"`
}

type movedReply struct {
	Done   string `json:"done"`
	Future int    `json:"future"`
	Past   int    `json:"past"`
}

type shownReply struct {
	Done   string                 `json:"done"`
	Object map[string]interface{} `json:"object"`
}

// entry is one of `managedFields`, without its time, which the library does not keep.
type entry struct {
	APIVersion string          `json:"apiVersion"`
	FieldsType string          `json:"fieldsType"`
	FieldsV1   json.RawMessage `json:"fieldsV1"`
	Manager    string          `json:"manager"`
	Operation  string          `json:"operation"`
}

func printed(reply interface{}) []byte {
	text, err := json.Marshal(reply)
	if err != nil {
		panic(err)
	}
	return text
}

func refusal(err error) interface{} {
	if err == errIdentity {
		return faultReply{60, "Identity"}
	}
	return faultReply{-1, err.Error()}
}

// refused is the reply where the library's call failed.
func (b *bench) refused(err error) interface{} {
	var clashes merge.Conflicts
	if !errors.As(err, &clashes) {
		return refusal(err)
	}
	fields := map[string][][]string{}
	for _, clash := range clashes {
		fields[clash.Manager] = append(fields[clash.Manager], texts(nil, clash.Path))
	}
	reply := conflictsReply{Fault: 50, Name: "Conflict"}
	for _, key := range b.live.order {
		if lost, ok := fields[key]; ok {
			operation, manager := named(key)
			reply.Conflicts = append(reply.Conflicts, conflict{lost, manager, operation})
		}
	}
	return reply
}

// told is the reply of a command that led to a state, over these changes of the body.
func (b *bench) told(c *command, next *state, changes *typed.Comparison) interface{} {
	reply := doneReply{[][]string{}, c.Do, len(next.order), [][]string{}, [][]string{}}
	if changes != nil {
		root, _ := b.bodies.Schema.Resolve(b.bodies.TypeRef)
		reply.Added = points(reply.Added, nil, changes.Added, root)
		changes.Modified.Iterate(func(path fieldpath.Path) { reply.Modified = append(reply.Modified, texts(nil, path)) })
		changes.Removed.Iterate(func(path fieldpath.Path) { reply.Removed = append(reply.Removed, texts(nil, path)) })
	}
	return reply
}

// points appends the paths of a set of what came, each after the beginning, without the fields that only hold others
// of them: the library tells those too, and a reply has leaves, items, entries and empty branches.
func points(to [][]string, beginning []string, from *fieldpath.Set, at schema.Atom) [][]string {
	from.Members.Iterate(func(element fieldpath.PathElement) {
		if isField(element, at) {
			if below, ok := from.Children.Get(element); ok && !below.Empty() {
				return
			}
		}
		to = append(to, texts(beginning, fieldpath.Path{element}))
	})
	from.Children.Iterate(func(element fieldpath.PathElement) {
		below, _ := from.Children.Get(element)
		to = points(to, texts(beginning, fieldpath.Path{element}), below, inside(element, at))
	})
	return to
}

func isField(element fieldpath.PathElement, at schema.Atom) bool {
	if element.FieldName == nil || at.Map == nil {
		return false
	}
	_, ok := at.Map.FindField(*element.FieldName)
	return ok
}

// inside is the type of what stands at an element of a value of a type.
func inside(element fieldpath.PathElement, at schema.Atom) schema.Atom {
	switch {
	case at.List != nil:
		return at.List.ElementType.Inlined
	case isField(element, at):
		field, _ := at.Map.FindField(*element.FieldName)
		return field.Type.Inlined
	case at.Map != nil:
		return at.Map.ElementType.Inlined
	}
	return schema.Atom{}
}

// texts is a path as its elements' texts, behind those of a beginning.
func texts(beginning []string, path fieldpath.Path) []string {
	to := append(make([]string, 0, len(beginning)+len(path)), beginning...)
	for _, element := range path {
		text, err := fieldpath.SerializePathElement(element)
		if err != nil {
			panic(err)
		}
		to = append(to, text)
	}
	return to
}

func named(key string) (operation, manager string) {
	operation, manager, _ = strings.Cut(key, " ")
	return operation, manager
}

// shown is the live object, with its managers' entries if so asked.
func (b *bench) shown(isManaged bool) interface{} {
	object := map[string]interface{}{"apiVersion": b.identity.apiVersion, "kind": b.identity.kind}
	about := map[string]interface{}{"name": b.identity.name}
	if b.identity.namespace != "" {
		about["namespace"] = b.identity.namespace
	}
	body, _ := b.live.body.AsValue().Unstructured().(map[string]interface{})
	for name, child := range body {
		object[name] = child
	}
	kept, _ := body["metadata"].(map[string]interface{})
	for name, child := range kept {
		about[name] = child
	}
	if isManaged && len(b.live.order) > 0 {
		about["managedFields"] = b.entries()
	}
	object["metadata"] = about
	return shownReply{"show", object}
}

// entries are those of the managers. The library lets an Update own the fields, too, that only hold what it added, and has
// them stay when they are gone; ssabench lets it own points alone. So its sets are shown without what is no point of the body.
func (b *bench) entries() []entry {
	var found []entry
	all, err := b.live.body.ToFieldSet()
	if err != nil {
		panic(err)
	}
	for _, key := range b.live.order {
		operation, manager := named(key)
		set := b.live.managers[key].Set()
		if operation == "Update" {
			set = set.Intersection(all)
		}
		fields, err := set.ToJSON()
		if err != nil {
			panic(err)
		}
		if !set.Empty() {
			found = append(found, entry{b.identity.apiVersion, "FieldsV1", fields, manager, operation})
		}
	}
	return found
}
