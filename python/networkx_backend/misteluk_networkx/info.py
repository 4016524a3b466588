"""What networkx is told of the backend while it is imported itself: so nothing here imports it."""
from __future__ import annotations

from typing import Any, Dict

# What the backend answers, and what is said of each in networkx's documentation.
FUNCTIONS = {
    "core_number": "Where no two vertices have edges both ways, which networkx counts as two.",
    "is_weakly_connected": "",
    "number_weakly_connected_components": "",
    "pagerank": "With needs of networkx's own: numpy and scipy.",
    "single_source_shortest_path_length": "Without a cutoff.",
    "to_scipy_sparse_array": "Of all nodes in their order, with the weights, or 1 for each edge.",
    "weakly_connected_components": "",
}


def info() -> Dict[str, Any]:
    """Returns what networkx's entry point `networkx.backend_info` asks for."""
    return {"backend_name": "misteluk", "package": "misteluk_networkx",
            "short_summary": "A held version of Misteluk, a store of a graph that changes.",
            "functions": {name: {"additional_docs": told} if told else {} for name, told in FUNCTIONS.items()}}
