package main

import (
	"bytes"
	"encoding/json"
	"errors"

	"sigs.k8s.io/structured-merge-diff/fieldpath"
	"sigs.k8s.io/structured-merge-diff/merge"
	"sigs.k8s.io/structured-merge-diff/typed"
	"sigs.k8s.io/structured-merge-diff/value"
)

// bench is an object's states and the place among them. A state is never changed, so going back is taking the old one.
type bench struct {
	bodies   typed.ParseableType
	identity identity
	updater  merge.Updater
	past     []*state
	live     *state
	future   []*state
}

// state is a body with its managers. The library's table has no order, so the order in which they came stands beside it.
type state struct {
	body     *typed.TypedValue
	managers fieldpath.ManagedFields
	order    []string
}

// identity is what every command's object has alike and nobody owns.
type identity struct {
	apiVersion, kind, name, namespace string
}

// command is a line. An apply or an update is of one manager, who is another for each of the two.
type command struct {
	Do      string      `json:"do"`
	Manager string      `json:"manager"`
	Force   bool        `json:"force"`
	Managed bool        `json:"managed"`
	Object  interface{} `json:"object"`
}

const (
	applied = "Apply "
	updated = "Update "
)

// key is the manager's name in the library's table.
func (c *command) key() string {
	if c.Do == "apply" {
		return applied + c.Manager
	}
	return updated + c.Manager
}

var errIdentity = errors.New("identity missing, ill-typed or different")

func newBench(schemaText, objectText []byte) (*bench, error) {
	var root kind
	if err := json.Unmarshal(schemaText, &root); err != nil {
		return nil, err
	}
	bodies, err := parseable(&root)
	if err != nil {
		return nil, err
	}
	object, err := readValue(objectText)
	if err != nil {
		return nil, err
	}
	own, err := takeIdentity(object)
	if err != nil {
		return nil, err
	}
	body, err := bodies.FromUnstructured(object)
	if err != nil {
		return nil, err
	}
	return &bench{
		bodies:   bodies,
		identity: own,
		updater:  merge.Updater{Converter: oneVersion{}},
		live:     &state{body: body, managers: fieldpath.ManagedFields{}},
	}, nil
}

// oneVersion converts nothing: a bench has one version.
type oneVersion struct{}

func (oneVersion) Convert(object *typed.TypedValue, _ fieldpath.APIVersion) (*typed.TypedValue, error) {
	return object, nil
}

func (oneVersion) IsMissingVersionError(error) bool {
	return false
}

// answer carries a line out and tells its reply.
func (b *bench) answer(line []byte) []byte {
	c, err := readCommand(line)
	if err != nil {
		return printed(refusal(err))
	}
	switch c.Do {
	case "apply", "update", "strip":
		next, reply := b.carriedOut(c)
		if next != nil {
			b.past, b.live, b.future = append(b.past, b.live), next, nil
		}
		return printed(reply)
	case "undo":
		if len(b.past) == 0 {
			return printed(faultReply{64, "NothingToUndo"})
		}
		b.future = append(b.future, b.live)
		b.live, b.past = b.past[len(b.past)-1], b.past[:len(b.past)-1]
		return printed(movedReply{c.Do, len(b.future), len(b.past)})
	case "redo":
		if len(b.future) == 0 {
			return printed(faultReply{65, "NothingToRedo"})
		}
		b.past = append(b.past, b.live)
		b.live, b.future = b.future[len(b.future)-1], b.future[:len(b.future)-1]
		return printed(movedReply{c.Do, len(b.future), len(b.past)})
	case "show":
		return printed(b.shown(c.Managed))
	}
	return printed(faultReply{66, "CommandShape"})
}

// carriedOut is the state after a command and its reply; where it is refused there is no state. The bench stays as it is.
func (b *bench) carriedOut(c *command) (*state, interface{}) {
	if c.Do == "strip" {
		next := &state{body: b.live.body, managers: fieldpath.ManagedFields{}}
		return next, b.told(c, next, nil)
	}
	given, err := b.typed(c.Object)
	if err != nil {
		return nil, refusal(err)
	}
	body, managers, err := b.called(c, given)
	if err != nil {
		return nil, b.refused(err)
	}
	next := &state{body: b.live.body, managers: managers, order: b.live.orderAfter(c.key(), managers)}
	if body == nil {
		return next, b.told(c, next, nil)
	}
	next.body = b.withoutNulls(body)
	changes, err := b.live.body.Compare(next.body)
	if err != nil {
		return nil, refusal(err)
	}
	return next, b.told(c, next, changes)
}

// called is the library's call alone: it does not change the live state. Without a body nothing has changed in it.
func (b *bench) called(c *command, given *typed.TypedValue) (*typed.TypedValue, fieldpath.ManagedFields, error) {
	version := fieldpath.APIVersion(b.identity.apiVersion)
	if c.Do == "apply" {
		return b.updater.Apply(b.live.body, given, version, b.live.managers, c.key(), c.Force)
	}
	return b.updater.Update(b.live.body, given, version, b.live.managers, c.key())
}

// typed is the body of a command's object, tested against the schema. The object is taken apart.
func (b *bench) typed(object interface{}) (*typed.TypedValue, error) {
	own, err := takeIdentity(object)
	if err != nil {
		return nil, err
	}
	if own != b.identity {
		return nil, errIdentity
	}
	return b.bodies.FromUnstructured(object)
}

// orderAfter is the table's order after a command: a manager keeps its place, and the acting one comes last if it is new.
func (s *state) orderAfter(acting string, managers fieldpath.ManagedFields) []string {
	order := make([]string, 0, len(managers))
	isNew := true
	for _, key := range s.order {
		isNew = isNew && key != acting
		if _, ok := managers[key]; ok {
			order = append(order, key)
		}
	}
	if _, ok := managers[acting]; ok && isNew {
		order = append(order, acting)
	}
	return order
}

// withoutNulls is a body without the nulls that the library leaves where a pruning empties a list or a map.
func (b *bench) withoutNulls(body *typed.TypedValue) *typed.TypedValue {
	left, isSame := cleared(body.AsValue().Unstructured())
	if isSame {
		return body
	}
	if left == nil {
		left = map[string]interface{}{}
	}
	return typed.AsTypedUnvalidated(value.NewValueInterface(left), b.bodies.Schema, b.bodies.TypeRef)
}

// cleared is a value without nulls, and without what holds nothing once they are gone, and whether it is the same as
// before; null, where nothing is left. Parts of it may stand in other states too, so what changes is made anew.
func cleared(from interface{}) (interface{}, bool) {
	isSame := true
	switch whole := from.(type) {
	case nil:
		return nil, false
	case map[string]interface{}:
		to := whole
		for name, child := range whole {
			left, isKept := cleared(child)
			if isKept {
				continue
			}
			if isSame {
				isSame, to = false, make(map[string]interface{}, len(whole))
				for key, value := range whole {
					to[key] = value
				}
			}
			if left == nil {
				delete(to, name)
			} else {
				to[name] = left
			}
		}
		if !isSame && len(to) == 0 {
			return nil, false
		}
		return to, isSame
	case []interface{}:
		to := whole
		for i, child := range whole {
			left, isKept := cleared(child)
			if isSame && !isKept {
				isSame, to = false, append([]interface{}(nil), whole[:i]...)
			}
			if !isSame && left != nil {
				to = append(to, left)
			}
		}
		if !isSame && len(to) == 0 {
			return nil, false
		}
		return to, isSame
	}
	return from, true
}

// takeIdentity takes the identity out of an object, and `metadata` where nothing else was in it.
func takeIdentity(from interface{}) (identity, error) {
	object, _ := from.(map[string]interface{})
	about, _ := object["metadata"].(map[string]interface{})
	var own identity
	var isVersion, isKind, isName bool
	own.apiVersion, isVersion = object["apiVersion"].(string)
	own.kind, isKind = object["kind"].(string)
	own.name, isName = about["name"].(string)
	namespace, hasNamespace := about["namespace"]
	if hasNamespace {
		if own.namespace, hasNamespace = namespace.(string); !hasNamespace {
			return own, errIdentity
		}
	}
	if !isVersion || !isKind || !isName {
		return own, errIdentity
	}
	delete(object, "apiVersion")
	delete(object, "kind")
	delete(about, "name")
	delete(about, "namespace")
	if len(about) == 0 {
		delete(object, "metadata")
	}
	return own, nil
}

func readCommand(line []byte) (*command, error) {
	c := &command{}
	if err := read(line, c); err != nil {
		return nil, err
	}
	var err error
	c.Object, err = withWholeNumbers(c.Object)
	return c, err
}

func readValue(text []byte) (interface{}, error) {
	var found interface{}
	if err := read(text, &found); err != nil {
		return nil, err
	}
	return withWholeNumbers(found)
}

func read(text []byte, into interface{}) error {
	decoder := json.NewDecoder(bytes.NewReader(text))
	decoder.UseNumber()
	return decoder.Decode(into)
}

// withWholeNumbers turns the numbers of a value that was read into whole ones, in place.
func withWholeNumbers(from interface{}) (interface{}, error) {
	var err error
	switch whole := from.(type) {
	case json.Number:
		return whole.Int64()
	case map[string]interface{}:
		for name, child := range whole {
			switch child.(type) {
			case json.Number, map[string]interface{}, []interface{}:
				if whole[name], err = withWholeNumbers(child); err != nil {
					return nil, err
				}
			}
		}
	case []interface{}:
		for i, child := range whole {
			if whole[i], err = withWholeNumbers(child); err != nil {
				return nil, err
			}
		}
	}
	return from, nil
}
