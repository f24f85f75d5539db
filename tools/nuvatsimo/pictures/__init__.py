"""Pictures of journals: SVG, overviews of long runs, and sequence diagrams."""
