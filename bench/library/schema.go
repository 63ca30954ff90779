package main

import (
	"fmt"
	"sort"

	"sigs.k8s.io/structured-merge-diff/schema"
	"sigs.k8s.io/structured-merge-diff/typed"
)

// kind is a schema as schema files have it.
type kind struct {
	Type                 string           `json:"type"`
	Properties           map[string]*kind `json:"properties"`
	AdditionalProperties *kind            `json:"additionalProperties"`
	Items                *kind            `json:"items"`
	ListType             string           `json:"x-kubernetes-list-type"`
	MapKeys              []string         `json:"x-kubernetes-list-map-keys"`
	MapType              string           `json:"x-kubernetes-map-type"`
}

var (
	text = &kind{Type: "string"}
	dict = &kind{Type: "object", AdditionalProperties: text}
	// metadata is what every object has of it beside its identity.
	metadata = &kind{Type: "object", Properties: map[string]*kind{
		"annotations": dict,
		"finalizers":  {Type: "array", Items: text, ListType: "set"},
		"labels":      dict,
	}}
)

// parseable is the library's type of the bodies under a schema: the schema with `metadata` added. All but the root is
// inlined, which spares the library a look-up by name at each value.
func parseable(root *kind) (typed.ParseableType, error) {
	fields := map[string]*kind{"metadata": metadata}
	for name, property := range root.Properties {
		fields[name] = property
	}
	atom, err := (&kind{Type: "object", Properties: fields}).atom()
	if err != nil {
		return typed.ParseableType{}, err
	}
	name := "object"
	return typed.ParseableType{
		Schema:  &schema.Schema{Types: []schema.TypeDef{{Name: name, Atom: atom}}},
		TypeRef: schema.TypeRef{NamedType: &name},
	}, nil
}

// atom is the library's form of a schema.
func (k *kind) atom() (schema.Atom, error) {
	switch k.Type {
	case "string":
		return scalar(schema.String), nil
	case "integer":
		return scalar(schema.Numeric), nil
	case "boolean":
		return scalar(schema.Boolean), nil
	case "array":
		return k.list()
	case "object":
		return k.object()
	}
	return schema.Atom{}, fmt.Errorf("a schema of the type %q", k.Type)
}

func scalar(of schema.Scalar) schema.Atom {
	return schema.Atom{Scalar: &of}
}

func (k *kind) list() (schema.Atom, error) {
	if k.Items == nil {
		return schema.Atom{}, fmt.Errorf("an array without items")
	}
	items, err := k.Items.atom()
	if err != nil {
		return schema.Atom{}, err
	}
	list := &schema.List{ElementType: schema.TypeRef{Inlined: items}, ElementRelationship: schema.Atomic}
	if k.ListType == "set" || k.ListType == "map" {
		list.ElementRelationship = schema.Associative
		list.Keys = k.MapKeys
	}
	return schema.Atom{List: list}, nil
}

func (k *kind) object() (schema.Atom, error) {
	object := &schema.Map{}
	if k.MapType == "atomic" {
		object.ElementRelationship = schema.Atomic
	}
	if k.AdditionalProperties != nil {
		entries, err := k.AdditionalProperties.atom()
		if err != nil {
			return schema.Atom{}, err
		}
		object.ElementType = schema.TypeRef{Inlined: entries}
	}
	names := make([]string, 0, len(k.Properties))
	for name := range k.Properties {
		names = append(names, name)
	}
	sort.Strings(names)
	for _, name := range names {
		field, err := k.Properties[name].atom()
		if err != nil {
			return schema.Atom{}, err
		}
		object.Fields = append(object.Fields, schema.StructField{Name: name, Type: schema.TypeRef{Inlined: field}})
	}
	return schema.Atom{Map: object}, nil
}
