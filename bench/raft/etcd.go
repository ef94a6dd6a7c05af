// Three raft nodes of etcd in memory, between which messages are carried in order. The words: how many proposals, how many between two
// deliveries, and the length of each proposal in bytes. It ends with status 0 where all proposals were applied by the leader.
package main

import (
	"os"
	"strconv"

	"go.etcd.io/etcd/raft"
	"go.etcd.io/etcd/raft/raftpb"
)

type node struct {
	raw     *raft.RawNode
	storage *raft.MemoryStorage
	applied int
}

func number(place int) int {
	n, err := strconv.Atoi(os.Args[place])
	if err != nil {
		os.Exit(2)
	}
	return n
}

func begun(id uint64) *node {
	storage := raft.NewMemoryStorage()
	storage.ApplySnapshot(raftpb.Snapshot{Metadata: raftpb.SnapshotMetadata{
		ConfState: raftpb.ConfState{Voters: []uint64{1, 2, 3}}, Index: 1, Term: 1,
	}})
	raw, err := raft.NewRawNode(&raft.Config{
		ID: id, ElectionTick: 10, HeartbeatTick: 1, Storage: storage, Applied: 1,
		MaxSizePerMsg: 1048576, MaxInflightMsgs: 4096, Logger: silent{},
	})
	if err != nil {
		os.Exit(2)
	}
	return &node{raw: raw, storage: storage}
}

// What a node has ready is stored, counted and sent.
func (n *node) take(queue []raftpb.Message) []raftpb.Message {
	for n.raw.HasReady() {
		ready := n.raw.Ready()
		if !raft.IsEmptyHardState(ready.HardState) {
			n.storage.SetHardState(ready.HardState)
		}
		n.storage.Append(ready.Entries)
		queue = append(queue, ready.Messages...)
		for _, entry := range ready.CommittedEntries {
			if entry.Type == raftpb.EntryNormal && len(entry.Data) > 0 {
				n.applied++
			}
		}
		n.raw.Advance(ready)
	}
	return queue
}

func settle(nodes []*node) {
	var queue []raftpb.Message
	for _, n := range nodes {
		queue = n.take(queue)
	}
	for len(queue) > 0 {
		sent := queue
		queue = nil
		for _, message := range sent {
			to := nodes[message.To-1]
			to.raw.Step(message)
			queue = to.take(queue)
		}
	}
}

func main() {
	times, between, size := number(1), number(2), number(3)
	nodes := []*node{begun(1), begun(2), begun(3)}
	nodes[0].raw.Campaign()
	settle(nodes)
	for sent := 0; sent < times; {
		for i := 0; i < between && sent < times; i++ {
			nodes[0].raw.Propose(make([]byte, size))
			sent++
		}
		settle(nodes)
	}
	if nodes[0].applied != times {
		os.Exit(1)
	}
}

// No log lines.
type silent struct{}

func (silent) Debug(...interface{})            {}
func (silent) Debugf(string, ...interface{})   {}
func (silent) Error(...interface{})            {}
func (silent) Errorf(string, ...interface{})   {}
func (silent) Info(...interface{})             {}
func (silent) Infof(string, ...interface{})    {}
func (silent) Warning(...interface{})          {}
func (silent) Warningf(string, ...interface{}) {}
func (silent) Fatal(...interface{})            {}
func (silent) Fatalf(string, ...interface{})   {}
func (silent) Panic(...interface{})            {}
func (silent) Panicf(string, ...interface{})   {}
