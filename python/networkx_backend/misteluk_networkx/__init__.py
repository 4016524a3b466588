"""A backend of networkx that answers from a held version of Misteluk. networkx finds it by its entry points."""
