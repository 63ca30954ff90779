// The field manager of Kubernetes, asked line by line: what an API server makes of a live object and a command on it.
//
// The first line is {"schemas":{NAME:SCHEMA..},"group":G,"version":V,"kind":K,"status":B}. Each further line is a command with the
// live object that it meets, null where there is none:
// {"do":"apply","live":OBJECT,"object":OBJECT,"manager":M,"force":B,"subresource":S} or {"do":"update",..}. Each is answered by a
// line: {"object":OBJECT}, {"conflicts":[{"manager":TEXT,"field":WAY}..]} or {"error":TEXT}.
//
// Where the kind has a subresource for its status, a command through it writes the status alone and any other all but that, as the
// server's own strategies for custom kinds have it: the other part's fields are ignored by the field manager, and stay as they are
// live.
package main

import (
	"bufio"
	"encoding/json"
	"errors"
	"fmt"
	"os"

	apierrors "k8s.io/apimachinery/pkg/api/errors"
	"k8s.io/apimachinery/pkg/apis/meta/v1/unstructured"
	"k8s.io/apimachinery/pkg/runtime"
	"k8s.io/apimachinery/pkg/runtime/schema"
	"k8s.io/apimachinery/pkg/util/managedfields"
	"k8s.io/kube-openapi/pkg/validation/spec"
	"sigs.k8s.io/structured-merge-diff/fieldpath" // Debian has v4 here
)

type opening struct {
	Schemas              map[string]*spec.Schema
	Group, Version, Kind string
	Status               bool
}

type command struct {
	Do          string
	Live        *unstructured.Unstructured
	Object      *unstructured.Unstructured
	Manager     string
	Force       bool
	Subresource string
}

// Objects of one version, made, converted and given defaults without doing anything.
type plain struct{}

func (plain) Convert(in, out, context any) error { return nil }
func (plain) ConvertToVersion(in runtime.Object, _ runtime.GroupVersioner) (runtime.Object, error) {
	return in, nil
}
func (plain) ConvertFieldLabel(_ schema.GroupVersionKind, _, _ string) (string, string, error) {
	return "", "", errors.New("no labels of fields")
}
func (plain) Default(runtime.Object) {}
func (plain) New(gvk schema.GroupVersionKind) (runtime.Object, error) {
	made := &unstructured.Unstructured{Object: map[string]any{}}
	made.SetGroupVersionKind(gvk)
	return made, nil
}

// The field manager of a part of the objects, which takes nothing of what the other part writes.
func managerOf(converter managedfields.TypeConverter, gvk schema.GroupVersionKind, part string, others ...string) *managedfields.FieldManager {
	var ignored map[fieldpath.APIVersion]fieldpath.Filter
	if len(others) > 0 {
		set := fieldpath.NewSet()
		for _, name := range others {
			set.Insert(fieldpath.MakePathOrDie(name))
		}
		version := fieldpath.APIVersion(gvk.GroupVersion().String())
		ignored = fieldpath.NewExcludeFilterSetMap(map[fieldpath.APIVersion]*fieldpath.Set{version: set})
	}
	manager, err := managedfields.NewDefaultFieldManager(converter, plain{}, plain{}, plain{}, gvk, gvk.GroupVersion(), part, ignored)
	fail(err)
	return manager
}

// The object with the other part as it is live.
func withOtherPart(made, live *unstructured.Unstructured, part string) *unstructured.Unstructured {
	to, from := made, live
	if part == "status" {
		to, from = live.DeepCopy(), made
		to.SetManagedFields(made.GetManagedFields())
	}
	if status, there := from.Object["status"]; there {
		to.Object["status"] = runtime.DeepCopyJSONValue(status)
	} else {
		delete(to.Object, "status")
	}
	return to
}

type conflict struct {
	Manager string `json:"manager"`
	Field   string `json:"field"`
}

func answered(manager *managedfields.FieldManager, gvk schema.GroupVersionKind, hasStatus bool, asked command) map[string]any {
	live := asked.Live
	if live == nil {
		live = &unstructured.Unstructured{Object: map[string]any{}}
		live.SetGroupVersionKind(gvk)
	}
	var object runtime.Object
	var err error
	if asked.Do == "update" {
		object, err = manager.Update(live, asked.Object, asked.Manager)
	} else {
		object, err = manager.Apply(live, asked.Object, asked.Manager, asked.Force)
	}
	var status *apierrors.StatusError
	if errors.As(err, &status) && apierrors.IsConflict(err) {
		conflicts := []conflict{}
		for _, cause := range status.ErrStatus.Details.Causes {
			conflicts = append(conflicts, conflict{cause.Message, cause.Field})
		}
		return map[string]any{"conflicts": conflicts}
	}
	if err != nil {
		return map[string]any{"error": err.Error()}
	}
	if hasStatus {
		return map[string]any{"object": withOtherPart(object.(*unstructured.Unstructured), live, asked.Subresource)}
	}
	return map[string]any{"object": object}
}

func fail(err error) {
	if err != nil {
		fmt.Fprintln(os.Stderr, "server:", err)
		os.Exit(1)
	}
}

func main() {
	lines := bufio.NewReaderSize(os.Stdin, 1<<20)
	decoder := json.NewDecoder(lines)
	var first opening
	fail(decoder.Decode(&first))
	converter, err := managedfields.NewTypeConverter(first.Schemas, false)
	fail(err)
	gvk := schema.GroupVersionKind{Group: first.Group, Version: first.Version, Kind: first.Kind}
	managers := map[string]*managedfields.FieldManager{"": managerOf(converter, gvk, "")}
	if first.Status {
		managers[""] = managerOf(converter, gvk, "", "status")
		managers["status"] = managerOf(converter, gvk, "status", "metadata", "spec")
	}
	encoder := json.NewEncoder(os.Stdout)
	for decoder.More() {
		var asked command
		fail(decoder.Decode(&asked))
		fail(encoder.Encode(answered(managers[asked.Subresource], gvk, first.Status, asked)))
	}
}
