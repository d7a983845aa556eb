// The cells of the classic notebook, for their marks.
define(['base/js/namespace', '../page/marks.js'], function (Jupyter, Marks) {
'use strict';

class Cells extends Marks {
    cell(id) { return Jupyter.CodeCell.msg_cells[id]; }

    cells() { return Jupyter.notebook.get_cells().filter(function (it) { return it.cell_type === 'code'; }); }

    element(cell) { return cell.element[0]; }
}

return Cells;
});
