"""What nbconvert makes of a notebook of Janus: `--to janus-cells`, and `--to script` too, whose parts would else run into one another."""
from nbconvert.exporters import Exporter

from .cells import of_notebook, written


class CellsExporter(Exporter):
    """A file of cells for janus-cells."""
    file_extension = '.janus-cells'
    output_mimetype = 'text/x-janus-cells'
    export_from_notebook = 'Janus cells'

    def from_notebook_node(self, nb, resources=None, **more):
        nb, resources = super().from_notebook_node(nb, resources, **more)
        return written(of_notebook(nb)), resources
