"""gated: a gate that lives beside a node. It follows the node, answers wallets as the node does, and writes a journal of every
line that the gate was given and of every reply, which `gate audit` checks."""

VERSION = "0.1.0"
