#!/bin/bash
# The places of docs/DESIGN-PASS.md, counted. Run at the top of the repository.
#   tools/places.sh          the table, a row for each crate
#   tools/places.sh N        how many places point N has
#   tools/places.sh N list   the places, a line each, `crate/file: item  what`
#   tools/places.sh new      how often the forms that replace them stand in the sources
#   tools/places.sh proofs   the proof files of each crate
# out/ folders do not count: sources are crates/*/src/*.rt, and proofs are what git tracks.
cd "$(git rev-parse --show-toplevel)" || exit 1

# A line for each item of a kind (fn, enum, struct): path, name, text, with tabs between.
items() {
    awk -v kind="$1" '
        function say() { p = FILENAME; sub(/^crates\//, "", p); sub(/\/src\//, "/", p); print p "\t" name "\t" text; text = "" }
        /^ *\/\// { next }
        text == "" && $0 ~ "^ *(pub )?(const )?(extern \"C\" )?" kind " [A-Za-z]" {
            match($0, /^ */); indent = substr($0, 1, RLENGTH); text = $0; name = $0
            sub("^.*" kind " ", "", name); sub(/[^A-Za-z0-9_].*/, "", name)
            if ($0 ~ /[};]$/) say(); next }
        text != "" { line = $0; sub(/^ +/, " ", line); text = text line; if ($0 == indent "}") say() }
    ' crates/*/src/*.rt
}
fns() { items fn; }

# Functions whose text has a match. $1: what; $2: regex; $3: paths or names left out (regex).
having() { fns | awk -F '\t' -v what="$1" -v re="$2" -v no="${3:-^$}" '($1 ": " $2) !~ no && $3 ~ re { print $1 ": " $2 "  " what }'; }

# Such a line's three parts: the regex may have a | too.
parts='function parts(line, f) { f[1] = f[2] = f[3] = line; sub(/[|].*/, "", f[1]); sub(/^[^|]*[|]/, "", f[2]); sub(/[|][^|]*$/, "", f[2]); sub(/^.*[|]/, "", f[3]) }'

# Of lines `what|regex|path:name ..` on stdin: each named function that is there and has a match. An empty regex matches all.
named() {
    awk -F '\t' "$parts"'FNR == NR { text[$1 ":" $2] = text[$1 ":" $2] $3; next }
        { parts($0, f); n = split(f[3], g, " ")
          for (i = 1; i <= n; i++) if (g[i] in text && text[g[i]] ~ f[2]) { x = g[i]; sub(/:/, ": ", x); print x "  " f[1] } }' <(fns) -
}

# Of such lines: each that has two or more functions left, as one place, in the crate of the first.
families() {
    awk -F '\t' "$parts"'FNR == NR { text[$1 ":" $2] = text[$1 ":" $2] $3; next }
        { parts($0, f); n = split(f[3], g, " "); left = ""; k = 0
          for (i = 1; i <= n; i++) if (g[i] in text && text[g[i]] ~ f[2]) { left = left " " g[i]; k++ }
          if (k > 1) { x = left; sub(/^ /, "", x); sub(/ .*/, "", x); sub(/:.*/, "", x); print x ": " k " functions  " f[1] ":" left } }' <(fns) -
}

# 1. Own enums of the shape of Option or Result; a flag or sentinel with a value beside it; a number for a kind or a refusal.
p1() {
    items enum | awk -F '\t' '{ v = $3; sub(/^[^{]*\{/, "", v); commas = gsub(/,( |\})/, ",", v); payload = $3 ~ /[A-Za-z]\(/
        n = 0; w = $3; while (match(w, /[ {][A-Z][A-Za-z]*[(,]/)) { n++; w = substr(w, RSTART + RLENGTH - 1); if (substr(w, 1, 1) == "(") { sub(/^\([^)]*\)/, "", w) } }
        if ($3 ~ /Refused\(/) print $1 ": enum " $2 "  as Result"
        else if ($3 !~ /: [a-z]/ && n == 2) print $1 ": enum " $2 "  as Option or Result" }'
    items struct | awk -F '\t' '$3 ~ /(fine|inside|has|status|found|ok): (bool|u64)/ { print $1 ": struct " $2 "  flag beside values" }
        $3 ~ /outcome: u8/ { print $1 ": struct " $2 "  number for a kind" }'
    having 'flag beside a value' '\((present|ok): bool|, ok: bool'
    named <<'LIST'
sentinel: n for none|found == n|meshing/weld.rt:find_key
sentinel: the end for none|i < m \{ return|meshing/ears.rt:first_ear
sentinel: 0 for no kind|Unknown => 0|openrdson_core/mesh.rt:used_places
sentinel: 0 for no kind|n == 0|openrdson_core/mesh.rt:element_sound
bool for a refusal|-> bool|meshing/crossings.rt:sort_crossings
sentinel: 0 for another call|return 0|records/input.rt:place_of
sentinel: u64::MAX for a part outside|MAX|replay_blocks/answers.rt:outside
sentinel: 0 for no thickness|> 0.0|sample/blocks.rt:flags
sentinel: the place past the last for a failed write|SIZE|sample/out.rt:written sample/out.rt:close
flag list beside value lists|== 0|geometry/table.rt:plan_at
flag list beside value lists|outcome\(\)|geometry/table.rt:fill_plans
LIST
    having 'number for a kind' '[( ]kind: u(8|64)[,)]|kinds\[[a-z]\] [!=]= [0-9]|kind [!=]= [0-9]|outcome: u8|-> u8 .*(Skipped|Box)|Skipped\([0-9]\)|fill(_bytes)?\((lists\.)?kinds, [^;]*, [0-9]\)|column: u8' \
        'c_api/|geometry/(rows.rt: kind_of|regions.rt: region_at)|openrdson_core/mesh.rt: (element_type|used_places)'
    having 'number for a call' '[( ]call: u64[,)]|call [<>=!]+ [0-9]|call < |word\(record, 0\) [<>=]+ [0-9]|match word\(record, 0\)'
    having 'number for a refusal' '[( ]number: u32\) -> bool'
}

# 2. Families that differ in a type, a size or a constant.
p2() {
    families <<'LIST'
a limit||binary64/range.rt:coordinate_in_range binary64/range.rt:extent_in_range binary64/range.rt:figure_in_range
a sign||binary64/pattern.rt:infinity binary64/pattern.rt:minus_infinity
a sign||binary64/rounding.rt:minus_capped binary64/rounding.rt:plus_capped
the point at a place||openrdson_core/area.rt:point_at meshing/ring.rt:point_at
a term of the shoelace sum||openrdson_core/area.rt:cross_of geometry/volume.rt:cross_of
two heights in range||openrdson_core/solids.rt:heights_in_range geometry/volume.rt:heights_in_range
a box's volume||openrdson_core/solids.rt:box_volume geometry/volume.rt:box_volume
times height||openrdson_core/solids.rt:prism_volume geometry/volume.rt:times_height
area of a ring, by 8 or 2 edges a turn||openrdson_core/area.rt:signed_area_of_points geometry/volume.rt:ring_area
type|match part|openrdson_core/solids.rt:prism_bounds openrdson_core/solids.rt:prism_volume
type|match checked|openrdson_core/solids.rt:part_bounds openrdson_core/solids.rt:part_area
what is kept beside the sum||openrdson_core/area.rt:sum_of_small openrdson_core/area.rt:sum_of_large
direction||openrdson_core/bounds.rt:lesser openrdson_core/bounds.rt:greater
axis||openrdson_core/bounds.rt:width openrdson_core/bounds.rt:height
the same twice||openrdson_core/bounds.rt:extend openrdson_core/bounds.rt:union
kind of cells, once or not||openrdson_core/tech.rt:is_stack openrdson_core/tech.rt:is_vias openrdson_core/maps.rt:is_map openrdson_core/layout.rt:is_layer_names
key and width|while |for [a-z]+ in |openrdson_core/blocks.rt:find_row openrdson_core/blocks.rt:find openrdson_core/layout.rt:find_pattern
all cells pass|while |for [a-z]+ in |openrdson_core/blocks.rt:all_cells openrdson_core/tech.rt:is_stack_in openrdson_core/tech.rt:is_in_range openrdson_core/blocks.rt:is_new
where a row's name stands|32|openrdson_core/maps.rt:find_in_map openrdson_core/layout.rt:find_layer_name openrdson_core/layout.rt:layer_name_at
a figure's test|present: bool|openrdson_core/blocks.rt:is_figure openrdson_core/tech.rt:is_figure_in
the two figures of an entry|c\[1\.\.9\]|openrdson_core/blocks.rt:is_stack_entry openrdson_core/tech.rt:are_figures_in openrdson_core/tech.rt:entry_at
every place passes|while|openrdson_core/mesh.rt:rest_unused openrdson_core/mesh.rt:first_below
a table by kind|match self|openrdson_core/mesh.rt:number openrdson_core/mesh.rt:node_count
field|match self|openrdson_core/solids.rt:z_bottom openrdson_core/solids.rt:z_top
column of a plan|match self|geometry/table.rt:outcome geometry/table.rt:z_bottom geometry/table.rt:z_top geometry/table.rt:material
which fallback|find_stack_layer|geometry/ranges.rt:diffusion_range geometry/ranges.rt:layer_range
two values, both present|ZRange|geometry/ranges.rt:from_to geometry/ranges.rt:between
columns of a solid|match solid|geometry/rows.rt:kind_of geometry/rows.rt:sides_of geometry/rows.rt:part_of
a row, read twice||geometry/regions.rt:region_at geometry/regions.rt:region geometry/volume.rt:row_volume geometry/volume.rt:volume
a part is checked: 15, then the ring|start: u32|geometry/polygons.rt:polygon_check meshing/prism.rt:part_check openrdson_core/solids.rt:points_check
lengths are equal|==|geometry/regions.rt:are_regions_even geometry/polygons.rt:are_polygons_even
type of entries|while|meshing/writes.rt:copy_bytes meshing/writes.rt:copy_words meshing/writes.rt:copy_reals
type of entries|while|meshing/writes.rt:fill_bytes meshing/writes.rt:fill_words meshing/writes.rt:fill_reals
type of entries||meshing/grid.rt:write_eight meshing/quads.rt:write_eight
direction||meshing/ring.rt:next_place meshing/ring.rt:prev_place
what is done with the cleaned ring|is_clean|meshing/prism.rt:mesh_part meshing/prism.rt:mesh_slanted
a ring is cleaned into two lists|kept_places.*gather_into.*gather_into|meshing/ring.rt:dedup_ring meshing/prism.rt:mesh_part meshing/prism.rt:mesh_slanted meshing/triangulate.rt:triangulate_checked
a small ring's room or a large one's|<= 32|meshing/scanline.rt:mesh_scanline meshing/prism.rt:mesh_again meshing/triangulate.rt:clip_ring
what is done with a band||meshing/scanline.rt:tally_bands meshing/scanline.rt:write_bands
what is done with a quad||meshing/quads.rt:tally_quads meshing/quads.rt:write_quads
step given or worked out||meshing/cells.rt:axis_at meshing/cells.rt:at meshing/grid.rt:axis_at meshing/grid.rt:node_row
kept in place||meshing/levels.rt:drop_close meshing/crossings.rt:keep_spanning meshing/ring.rt:kept_places
insertion by hand||meshing/levels.rt:insert_level meshing/levels.rt:level_slot meshing/crossings.rt:insert_crossing
count or write||meshing/weld.rt:count_kept meshing/weld.rt:write_kept
a node's key|nearest_capped|meshing/weld.rt:key_at meshing/weld.rt:key meshing/weld.rt:has_key
coordinates in range, of two lists or three||openrdson_core/points.rt:points_within openrdson_core/ring.rt:is_within openrdson_core/area.rt:are_in_range meshing/whole.rt:nodes_in_range meshing/whole.rt:is_in_range
the same with no override||meshing/model.rt:mesh_model meshing/model.rt:mesh_model_with_options
a value through one reference|why.number\(\)|c_api/answers.rt:give_number c_api/answers.rt:give_truth c_api/answers.rt:give_material c_api/boxes.rt:give_cells c_api/polygons.rt:give_points c_api/stacks.rt:give_count
a value through more references|why.number\(\)|c_api/answers.rt:give_bounds c_api/answers.rt:give_found c_api/answers.rt:give_name c_api/answers.rt:give_part c_api/answers.rt:give_layer c_api/answers.rt:give_via c_api/polygons.rt:give_counts c_api/boxes.rt:give_grown c_api/regions.rt:give_region
a part or none|start = 0|c_api/answers.rt:give_name c_api/answers.rt:give_part c_api/answers.rt:give_span
box or prism||c_api/solids.rt:openrdson_box_volume c_api/solids.rt:openrdson_prism_volume c_api/solids.rt:openrdson_box_region_volume c_api/solids.rt:openrdson_prism_region_volume
box or prism||c_api/solids.rt:openrdson_box_footprint_bbox c_api/solids.rt:openrdson_prism_footprint_bbox
box or prism, bottom or top||c_api/solids.rt:openrdson_box_z_bottom c_api/solids.rt:openrdson_box_z_top c_api/solids.rt:openrdson_prism_z_bottom c_api/solids.rt:openrdson_prism_z_top
ring or box||c_api/regions.rt:openrdson_extrude_polygon c_api/regions.rt:openrdson_extrude_box
box or prism||c_api/prisms.rt:openrdson_mesh_box_region c_api/prisms.rt:openrdson_mesh_prism_region
with overrides or not||c_api/models.rt:openrdson_mesh_model c_api/models.rt:openrdson_mesh_model_with_options
the counts in and out|nodes: \*nodes|c_api/boxes.rt:openrdson_mesh_box c_api/prisms.rt:openrdson_mesh_prism c_api/prisms.rt:openrdson_mesh_box_region c_api/prisms.rt:openrdson_mesh_prism_region c_api/models.rt:openrdson_mesh_model c_api/models.rt:openrdson_mesh_model_with_options
a number in, a number out||c_api/numbers.rt:openrdson_sqrt c_api/numbers.rt:openrdson_abs c_api/numbers.rt:openrdson_ceil_capped c_api/numbers.rt:openrdson_nearest_capped c_api/numbers.rt:openrdson_coordinate_in_range c_api/numbers.rt:openrdson_extent_in_range c_api/numbers.rt:openrdson_figure_in_range
a ring in, an answer out||c_api/rings.rt:openrdson_polygon_signed_area c_api/rings.rt:openrdson_polygon_area c_api/rings.rt:openrdson_is_ccw c_api/rings.rt:openrdson_is_axis_aligned_rectangle
type of entries|while|records/entries.rt:same_kinds records/entries.rt:same_numbers records/entries.rt:same_reals
type||records/words.rt:wide records/entries.rt:wider
type||records/words.rt:narrow replay_regions/entries.rt:byte
limit||records/words.rt:length_at replay_regions/places.rt:small_at
a case's counts and a line||records/report.rt:print_counts sample/report.rt:print_mesh
the loop over the records||replay/run.rt:replay replay_blocks/run.rt:replay replay_regions/run.rt:replay replay_meshes/run.rt:replay
the next record, by its size||replay/run.rt:replay_next replay_blocks/run.rt:replay_next replay_regions/run.rt:replay_next replay_meshes/run.rt:replay_next
a record, by its calls||replay/run.rt:replay_record replay_blocks/run.rt:replay_record replay_regions/run.rt:replay_record replay_meshes/run.rt:replay_record
a record's bytes, by its head||replay/run.rt:read_record replay_blocks/run.rt:read_record replay_regions/run.rt:read_record replay_meshes/run.rt:read_record
a record is whole||replay/run.rt:is_whole replay_blocks/run.rt:is_whole replay_regions/run.rt:is_whole replay_meshes/run.rt:is_whole
the program, by how many calls||replay/main.rt:main replay_blocks/main.rt:main replay_regions/main.rt:main replay_meshes/main.rt:main
a line a call||replay/report.rt:print_ring_calls replay/report.rt:print_solid_calls replay/report.rt:print_number_calls replay_blocks/report.rt:print_map_calls replay_blocks/report.rt:print_stack_calls replay_regions/report.rt:print_report replay_meshes/report.rt:print_report
where a part starts||replay_blocks/slices.rt:start_of replay_regions/places.rt:block_start replay_regions/places.rt:list_place
a part of the record||replay_blocks/slices.rt:slice replay_regions/places.rt:block
the words after the parts||replay_blocks/slices.rt:answer_place replay_regions/places.rt:points_place
lengths within limits||replay_blocks/slices.rt:are_lengths_in replay_regions/places.rt:are_lengths_in
a part as an answer||replay_blocks/answers.rt:part replay_blocks/answers.rt:span
type of entries||replay_regions/entries.rt:kinds_at replay_regions/entries.rt:shorts_at replay_regions/entries.rt:numbers_at replay_regions/entries.rt:reals_at records/words.rt:floats_at
type of entries||replay_regions/stacks.rt:are_kinds replay_regions/stacks.rt:are_numbers replay_regions/stacks.rt:are_reals
nodes or elements||replay_meshes/places.rt:nodes_from replay_meshes/places.rt:nodes_to replay_meshes/places.rt:elements_from replay_meshes/places.rt:elements_to
nodes or elements||replay_meshes/places.rt:new_nodes replay_meshes/places.rt:new_elements
box or prism||replay_meshes/boxes.rt:meshed_box replay_meshes/prisms.rt:meshed_prism
what is counted||replay_meshes/axes.rt:is_count_answered replay_meshes/axes.rt:is_coordinate_answered
a byte into a buffer||sample/out.rt:put_byte sample/blocks.rt:put_byte
bytes into a buffer||sample/out.rt:put sample/blocks.rt:put
an entry or 0||sample/vtk.rt:kind_at sample/vtk.rt:region_at sample/vtk.rt:material_at sample/mesh.rt:coordinate sample/mesh.rt:node_at
a table by kind|match kind|sample/vtk.rt:cell_type sample/vtk.rt:node_count
a table by material|match material|sample/legend.rt:put_name sample/legend.rt:put_colour
a column of elements||sample/vtk.rt:put_cells sample/vtk.rt:put_column
a column of polygons||sample/layout.rt:layers sample/layout.rt:nets sample/layout.rt:starts sample/layout.rt:counts
points of a shape||sample/layout.rt:put_gate sample/layout.rt:put_sliver sample/layout.rt:put_pad sample/layout.rt:put_shield
a block's size and rows||sample/stack.rt:layer_names sample/stack.rt:conducting sample/stack.rt:via sample/stack.rt:conductors sample/stack.rt:diffusions sample/stack.rt:vias
which file||sample/files.rt:write_mesh sample/files.rt:write_plan
a solid from its row||sample/regions.rt:solid_at geometry/regions.rt:region_at
type of answer|number: u32|worked/answers.rt:number_refused worked/answers.rt:verdict_refused worked/answers.rt:box_refused worked/answers.rt:check_refused worked/names.rt:lookup_refused worked/names.rt:material_refused worked/names.rt:layer_refused worked_meshed/lib.rt:meshed_refused worked_geometry/answers.rt:region_refused worked_geometry/answers.rt:total_refused worked_polygons/answers.rt:triangles_refused worked_boxes/answers.rt:cells_refused worked_boxes/answers.rt:coordinate_refused
type of answer|=> false|worked/answers.rt:is_number worked/answers.rt:is_verdict worked/answers.rt:is_box worked/names.rt:is_found worked/names.rt:is_material worked_geometry/answers.rt:is_total worked_layout/answers.rt:is_count worked_polygons/answers.rt:is_points worked_boxes/answers.rt:is_cells worked_boxes/answers.rt:is_coordinate
which call||worked/rings.rt:signed_is worked/rings.rt:area_is worked/rings.rt:ccw_is worked/rings.rt:rectangle_is worked/rings.rt:bounds_are
which call||worked/rings.rt:signed_refused worked/rings.rt:area_refused worked/rings.rt:ccw_refused worked/rings.rt:rectangle_refused worked/rings.rt:bounds_refused
which call||worked/solids.rt:volume_is worked/solids.rt:region_volume_is worked/solids.rt:footprint_is
which call||worked/solids.rt:volume_refused worked/solids.rt:region_volume_refused worked/solids.rt:footprint_refused
two counts|Refused\(_\) => false|worked_meshed/lib.rt:is_meshed worked_polygons/answers.rt:is_counts
the same solid|Solid::Box|worked_geometry/answers.rt:is_box worked_geometry/answers.rt:is_prism
a prism, by its points|mesh_prism|worked_prisms/main.rt:l_shape worked_prisms/main.rt:tie worked_prisms/main.rt:flat_plate worked_prisms/main.rt:thin_plate
a region, by its points|mesh_region|worked_prisms/main.rt:clipped worked_prisms/main.rt:box_region worked_prisms/main.rt:unequal_points
a ring, by its points|triangulate_polygon|worked_polygons/main.rt:square worked_polygons/main.rt:turned worked_polygons/main.rt:on_a_line
the same blocks, built again|first\[34\]|worked_blocks/main.rt:lookups worked_names/main.rt:places
the same blocks, built again|endless\[42\]|worked_stacks/main.rt:stacks worked_stacks/main.rt:figures
a model, by its rows|mesh_model|worked_models/main.rt:refused_amid worked_models/main.rt:short_diagnostics
a model, by its overrides|mesh_model|worked_overrides/main.rt:overrides worked_overrides/main.rt:unnamed_override
nodes without elements|weld_nodes|worked_welds/main.rt:halves worked_welds/main.rt:no_room
LIST
}

# 3. Loops that count an index by hand: every `while` and `loop`, but for those in the two places that the last line names, which count nothing.
p3() {
    awk 'FNR == 1 { name = "" } /^ *\/\// { next }
        /^ *(pub )?(extern "C" )?fn / { name = $0; sub(/^.*fn /, "", name); sub(/[^A-Za-z0-9_].*/, "", name) }
        /^ *(\x27[a-z]+: )?(while|loop) / { p = FILENAME; sub(/^crates\//, "", p); sub(/\/src\//, "/", p)
            t = $0; sub(/^ +/, "", t); sub(/ \{$/, "", t); print p ": " name "  " t }' crates/*/src/*.rt |
        grep -vE '^binary64/root.rt: |^records/(input|replay).rt: read_on '
}

# 4. Equality, order, copying, conversion and printing written by hand, and numbers' methods that std has (`abs`, `sqrt`, `ceil`, `round`).
p4() {
    named <<'LIST'
equality|while |for [a-z]+ in |openrdson_core/bytes.rt:is_same openrdson_core/bytes.rt:starts_with openrdson_core/bytes.rt:contains
conversion|as u64|openrdson_core/bytes.rt:wide openrdson_core/layout.rt:pattern
conversion|while|openrdson_core/bytes.rt:little
conversion|== 0|openrdson_core/mesh.rt:element_type
conversion|=> 1,|openrdson_core/mesh.rt:number openrdson_core/refusals.rt:number
order|<|openrdson_core/bounds.rt:lesser
order|>|openrdson_core/bounds.rt:greater
order|a < b|binary64/size.rt:larger
std has it|< 0.0|binary64/size.rt:abs
std has it|root_above_zero|binary64/root.rt:sqrt
std has it|truncating_|binary64/rounding.rt:ceil_capped binary64/rounding.rt:nearest_capped
conversion|0x7ff|binary64/pattern.rt:from_bits
conversion|9223372036854775807|binary64/rounding.rt:minus_capped binary64/rounding.rt:plus_capped
conversion|self|geometry/table.rt:outcome geometry/table.rt:z_bottom geometry/table.rt:z_top geometry/table.rt:material
conversion|outcome == 0|geometry/table.rt:plan_at
conversion|match solid|geometry/rows.rt:kind_of geometry/rows.rt:sides_of geometry/rows.rt:part_of
conversion|kind == 0|geometry/regions.rt:region_at
conversion|Solid::Box|geometry/extrude.rt:box_of
equality|== kinds|geometry/regions.rt:are_regions_even
equality|== layers|geometry/polygons.rt:are_polygons_even
copy|while|meshing/writes.rt:copy_bytes meshing/writes.rt:copy_words meshing/writes.rt:copy_reals meshing/writes.rt:fill_bytes meshing/writes.rt:fill_words meshing/writes.rt:fill_reals
copy|at \+ 7|meshing/grid.rt:write_eight meshing/quads.rt:write_eight
copy|while|meshing/crossings.rt:turn_round meshing/ears.rt:remove_at
copy||meshing/levels.rt:insert_level
order|d < e|meshing/crossings.rt:goes_before
order||meshing/crossings.rt:insert_crossing meshing/levels.rt:level_slot
order|v < least|meshing/volume.rt:reach
equality|!= key|meshing/weld.rt:has_key
conversion|match meshed|meshing/model.rt:diagnostic meshing/model.rt:counts_after
default|DEFAULT|meshing/cells.rt:default
copy|while|c_api/answers.rt:give_bytes
conversion|match solid|c_api/regions.rt:give_solid
conversion||c_api/solids.rt:boxed c_api/solids.rt:prism c_api/solids.rt:region
conversion|as u64|records/words.rt:wide records/entries.rt:wider records/words.rt:complement
conversion|<<|records/words.rt:word
conversion|!=|records/words.rt:bits
conversion|32768|records/words.rt:is_short records/words.rt:short
conversion|>|records/words.rt:narrow replay_regions/entries.rt:byte
order|> most|records/words.rt:at_most
equality|word\(record, i \+ 1\)|records/answers.rt:is_recorded
equality|while|records/entries.rt:same_kinds records/entries.rt:same_numbers records/entries.rt:same_reals
printing|write_all|records/report.rt:print_call
conversion|match given|replay/answers.rt:measured replay/answers.rt:judged replay/answers.rt:bounded
conversion|match|replay_blocks/answers.rt:of replay_blocks/answers.rt:checked replay_blocks/answers.rt:looked_up replay_blocks/answers.rt:named replay_blocks/answers.rt:layer_named replay_blocks/answers.rt:of_stack replay_blocks/answers.rt:of_via replay_blocks/answers.rt:numbered
equality|word\(|replay_regions/extrusions.rt:is_bounds replay_regions/extrusions.rt:is_part replay_regions/extrusions.rt:is_row replay_regions/extrusions.rt:is_recorded replay_regions/stacks.rt:is_recorded
equality|match solid|replay_regions/extrusions.rt:is_solid
conversion|match|replay_meshes/axes.rt:is_count_answered replay_meshes/axes.rt:is_coordinate_answered replay_meshes/meshes.rt:is_recorded
copy|while|sample/out.rt:put sample/blocks.rt:put
conversion|while|sample/blocks.rt:little
conversion|256|sample/out.rt:put_short
conversion|65536|sample/out.rt:put_int
conversion|4294967296|sample/out.rt:put_double
printing|put_|sample/out.rt:put_decimal sample/out.rt:put_nanometres
printing|rt|sample/report.rt:print_number sample/report.rt:print_refusal sample/report.rt:print_volume sample/report.rt:print_measured sample/report.rt:print_outcome sample/report.rt:print_region
printing|put\(buffer|sample/vtk.rt:put_count sample/svg.rt:put_group sample/legend.rt:put_paint sample/legend.rt:put_name sample/legend.rt:put_colour
conversion|kinds\[i\]|sample/regions.rt:solid_at
conversion|match kind|sample/vtk.rt:cell_type sample/vtk.rt:node_count
equality|&|worked/answers.rt:point_is worked/answers.rt:box_is
equality|match|worked/names.rt:figure_is worked/names.rt:figure_absent worked/names.rt:check_fine worked/kinds.rt:kind_is worked/kinds.rt:kind_unknown
equality|&|worked_geometry/answers.rt:is_box worked_geometry/answers.rt:is_prism worked_geometry/answers.rt:same_region
equality|match t|worked_geometry/answers.rt:same_solid
LIST
}

# 5. Facts in the contracts of three or more functions of a crate, and parameters that travel together in three or more of its functions.
p5() {
    awk -F '\t' 'FNR == NR { n++; path[n] = $1; text[n] = $3; next }
        { split($0, f, "~"); delete k
          for (i = 1; i <= n; i++) if (text[i] ~ f[3]) { c = path[i]; sub(/\/.*/, "", c); k[c]++ }
          for (c in k) if (k[c] > 2) print c ": " f[2] "  " f[1] " in " k[c] " functions" }' <(fns) - <<'LIST'
fact~xs and ys equally long~length ([a-z]+_)?xs?\.[a-z]+ ≡ length ([a-z]+_)?ys?\.|length ([a-z]+_)?ys?\.[a-z]+ ≡ length ([a-z]+_)?xs?\.|length ny\.old ≡ length nx
fact~xs, ys and zs equally long~length ([a-z]+_)?zs?\.[a-z]+ ≡ length ([a-z]+_)?xs?\.
fact~eight places a kind~length (out_)?places\.[a-z]+ ≡ 8 \* length
fact~an element has eight places~8 \* e \+ 8 ≤ length places|length places\.now ≡ 8\)|length places\.now ≡ 8 \}
fact~places are nodes~get_or .*places\.now.* k 0 < length
fact~Even: the twelve region lists equally long~requires.*[( ]Even \(the_regions
fact~EvenPolygons~requires.*EvenPolygons
fact~Sound: the six blocks checked~requires.*Sound \((spec\.)?the_blocks
fact~Room: four plan lists long enough~Room [0-9(]
fact~the three override lists equally long~length verticals\.now ≡ length materials
fact~parallel: the six mesh lists~requires.*parallel \(the_mesh
fact~within counts: of the mesh~requires.*within counts \(the_mesh
fact~Adds .. : what a region call leaves~ensures.*\{ Adds \(
fact~a ring was checked: ring_fault ≡ given tt, or part_fault~requires.*(ring|parts?)_fault [^}]* ≡ given tt
fact~a ring is not rectilinear~is_rectilinear xs\.now ys\.now ≡ false
fact~at most 512 points~length xs\.now ≤ 512
fact~at most 2097152 points~length xs\.now ≤ 2097152
fact~at most 4096 polygons or rows~length (layers|row_kinds)\.now ≤ 4096
fact~at most 1048576 nodes~≤ 1048576
fact~at most 4096 cells~n[xyz]? ≤ 4096
fact~Worked: room for levels, edges, crossings~Worked xs\.now
fact~edges or places below a length: Below~requires.*Below \(?(length|[0-9n])
fact~edges that span: m of them~m ≤ length edges
fact~corners are triples~corners_of \(triples
fact~room in a list: at + .. ≤ length .old~(at|p|t)( \+ [^≤}]*)? ≤ length [a-z_]+\.old
fact~stack_ok of conductors or diffusions~stack_ok [a-z]+\.now ≡ true
fact~vias_ok~vias_ok [a-z]+\.now ≡ true
fact~layer_names_ok~layer_names_ok [a-z]+\.now ≡ true
fact~2 ≤ length of a block~2 (≤|\+ .* ≤) length s\.now
fact~an entry's bytes: 17, or at most 8~length c\.now (≡ 17|≤ 8)
fact~step of an axis~step ≡ \(
fact~a list's number is at most 26~i ≤ 26
fact~places in a record: at ≤ 4096~(at|from|i) ≤ 4096
fact~row i of n of a block~\(i < n\) × \(n ≤ 256\)
fact~a list's length as a constant~≡ length result
fact~of_ring .. : a ring's answer~ensures.*of_ring xs\.now ys\.now
fact~of_solid .. : a solid's answer~ensures.*of_solid xs\.now
fact~Given .. : value kept where refused~ensures \{ Given
group~xs, ys~xs: &(mut )?\[f64[^]]*\], ys: &|xs: &(mut )?\[f64[^]]*\],ys:
group~point_x, point_y~point_x: &[^,]*, point_y: &
group~out_x, out_y or ring_x, ring_y~(out|ring)_x: &[^,]*, (out|ring)_y: &
group~xs, ys, zs~[xn][sx]: &[^,]*, [yn][sy]: &[^,]*, [zn][sz]: &
group~the six mesh lists~(kinds|out_kinds|element_kinds): [^,]*, (out_)?places: [^,]*, (out_|element_)?regions: 
group~kinds, places~kinds: &[^,]*, places: &
group~counts and the six mesh lists~counts: Counts, [xn][sx]: &mut
group~the twelve region lists~min_x: &(mut )?\[[^,]*, min_y: .*polygons: &
group~region lists, nine or ten of them~min_x: &(mut )?\[[^,]*, min_y: 
group~the twelve entries of a row, through references~min_x: &mut f64, min_y: .*count: &mut u32
group~the six blocks~names: &[^,]*, conducting: &[^,]*, via: &[^,]*, conductors: &
group~conductors, diffusions, vias~conductors: &[^,]*, diffusions: &
group~conducting, via~conducting: &[^,]*, via: &[^,]*, (name|asked)
group~the three override lists~laterals: &[^,]*, verticals: &
group~the four plan lists~(plan_)?outcomes: &[^,]*, (plan_bottom|z_bottom): &
group~layers, nets, starts, counts~(layers|polygon_nets): &.*(starts|polygon_starts): &[^,]*, [a-z_]*counts: &
group~starts, counts~[( ][a-z_]*starts: &[^,]*, [a-z_]*counts: &
group~z_bottom, z_top~z_bottom: f64, z_top: f64
group~start, count~start: u(32|size), count: u(32|size)
group~four bounds~min_x: f64, min_y: f64|x0: f64, y0: f64, x1
group~nx, ny, nz cells~nx: usize, ny: usize|nx: usize, y0
group~low, high~low: f64, high: f64|min: f64, max: f64|x0: f64, x1: f64
group~xs, ys and a tolerance, or bounds and a tolerance~tolerance: f64|bounds: Bbox, eps: f64
group~kept_x, kept_y, kept_z~kept_x: &[^,]*, kept_y: &
group~levels, edges, at: room to work in~edges: &mut \[usize\], at: &mut
group~region, counts: of a mesh that grows~region: u32, (config: MeshConfig, )?counts: Counts
group~material, net~material: (u32|Material), net: u32
group~material, net, polygon~material: u32, net: u32, polygon: u32
group~lateral_cell, z_cell~lateral_cell: f64, z_cell: f64
group~nodes, elements, through references~nodes: &mut usize, elements: &mut usize
group~min_x, min_y, max_x, max_y, through references~min_x: &mut f64, [a-z_]*min_y: &mut
group~from, to~from: usize, to: usize
group~cases, mismatches~cases: &[^,]*, mismatches: &
group~record, a place in it~record: &\[u8\], (at|i|from): usize
group~block, n, i~block: &mut \[u8\], n: usize, i: usize
group~buffer, at~buffer: &(mut )?\[u8[^]]*\], at: usize
group~file, buffer~file: &mut impl Write, buffer: &
LIST
}

# 6. Buffers with a length beside them, parallel arrays, lists searched by hand, arenas of indices.
p6() {
    having 'array, used up to a count' '= \[[^]]*; [0-9A-Z]+\];.*\[(0)?\.\.[a-z]'
    having 'list and how many of it count, as parameters' ': &(mut )?\[[a-z0-9]+\], (at: &mut \[f64\], )?(m|n|count): usize|x: f64, e: usize\) requires \{ \(m <|[(,] (nodes|elements): usize' \
        'c_api/|sample/blocks|replay_blocks/slices|replay_meshes/|openrdson_core/mesh.rt: (counts_within|element_)|meshing/(scanline.rt: write_|boxes|whole)|sample/report.rt|worked_meshed/'
    having 'fills a list, and its result is how many' ': &mut \[(f64|usize)\][^)]*\) -> usize' 'c_api/|records/'
    having 'array as the result, of which the caller uses a part' '-> \[[a-z0-9]+; (16|1024)\]' 'sample/'
    having 'buffer and the place in it' 'buffer: &mut \[u8; SIZE\], at: usize'
    named <<'LIST'
searched by hand|while |for [a-z]+ in |openrdson_core/blocks.rt:find_row openrdson_core/blocks.rt:find openrdson_core/blocks.rt:is_new openrdson_core/layout.rt:find_pattern meshing/weld.rt:find_key meshing/weld.rt:find meshing/model.rt:config_for
sorted by hand||meshing/levels.rt:level_slot meshing/levels.rt:insert_level meshing/crossings.rt:insert_crossing meshing/crossings.rt:sort_crossings
indices of another list|usize\]|meshing/ears.rt:first_ear meshing/ears.rt:clip_walk meshing/ears.rt:remove_at meshing/crossings.rt:cross meshing/ring.rt:gather_into meshing/triangulate.rt:fill_walk
LIST
    p5 | awk -F '  ' '$2 ~ /^group/ && $1 ~ /: (xs, ys|point_x, point_y|the six mesh lists|the twelve region lists|the four plan lists|the three override lists|layers, nets, starts, counts|cases, mismatches|levels, edges, at: room to work in|kept_x, kept_y, kept_z)$/ { print $1 "  parallel arrays" }'
}

# 7. Switches on which step to run, tables of functions.
p7() {
    named <<'LIST'
kind of a cell|match cell|openrdson_core/blocks.rt:is_cell openrdson_core/blocks.rt:width
a bool that says which step|once: bool|openrdson_core/blocks.rt:is_block
a bool that says which step|forward: bool|meshing/triangulate.rt:walk_place meshing/triangulate.rt:fill_walk
a size says which room|<= 32|meshing/scanline.rt:mesh_scanline meshing/prism.rt:mesh_again meshing/triangulate.rt:clip_ring
which way to mesh|ring_is_rectilinear|meshing/prism.rt:mesh_ring
number of a kind|kind == 2|meshing/volume.rt:element_volume
number of a call|match call|replay/calls.rt:of_ring replay/calls.rt:of_solid replay/calls.rt:of_number replay_blocks/calls.rt:slices_of replay_blocks/calls.rt:answer
number of a call|call <=|replay/calls.rt:answer
number of a call|match word|replay_regions/run.rt:is_answered replay_meshes/run.rt:is_answered
number of a call|== 46|replay_meshes/meshes.rt:meshed_region
number of a column|match column|sample/vtk.rt:entry
number of a row or a material|match|sample/legend.rt:put_name sample/legend.rt:put_colour sample/legend.rt:row_top sample/legend.rt:layer_material
LIST
}

# 8. Proof files: by crate, and what they import. A place is an answer that stands by itself.
proofs() { git ls-files "crates/$1/proofs/*.antt"; }
singles() { proofs "$1" | grep '/Answers.antt$' | xargs -r cat | grep -cE '^pub .* :'; }
old_imports() { proofs "$1" | xargs -r grep -lE '^use (mathlib|Prim|native|lib|borrow|mir)\.' | wc -l; }
p8() { proofs '*' | grep '/Answers.antt$' | xargs -r grep -E '^pub .* :' | sed -E 's#^crates/##; s#/proofs/#/#; s#/Answers.antt:pub ([^ ]+) :.*#: \1  answer#'; }
p8_table() {
    echo '| Crate | Answers.antt | their lines | single answers | longest line | lines above 160 | Invariants.antt | their lines | lemma files | their lines | files that import mathlib, Prim, native, lib, borrow or mir |'
    echo '|---|---|---|---|---|---|---|---|---|---|---|'
    for c in $(ls crates) '*'; do
        a=$(proofs "$c" | grep '/Answers.antt$'); i=$(proofs "$c" | grep '/Invariants.antt$'); o=$(proofs "$c" | grep -vE '/(Answers|Invariants).antt$')
        [ -z "$a$i$o" ] && continue
        lines() { echo "$1" | xargs -r cat | wc -l; }; n() { echo "$1" | grep -c .; }
        long=$(echo "$a" | xargs -r cat | awk '{ l = length($0); if (l > m) m = l; if (l > 160) k++ } END { print m + 0 " | " k + 0 }')
        name=$c; [ "$c" = '*' ] && name=all
        echo "| $name | $(n "$a") | $(lines "$a") | $(singles "$c") | $long | $(n "$i") | $(lines "$i") | $(n "$o") | $(lines "$o") | $(old_imports "$c") |"
    done
}

# The forms that replace these places, by regex.
new_forms() {
    while IFS='|' read -r what re; do echo "$what: $(grep -hvE '^ *//' crates/*/src/*.rt | grep -cE -- "$re")"; done <<'LIST'
lines with Option<|Option<
lines with Result<|Result<
lines with ?|\?[;)]|\?$
lines with a for|^ *for 
lines with .iter()|\.iter(_mut)?\(\)
closures|[(,] *(move )?\|[a-z_, ]*\|
traits|^(pub )?trait 
impls of a trait|^impl.* for 
functions with a type parameter|fn [a-z_]+<[A-Z]
functions with a const parameter|fn [a-z_]+<.*const 
ghost invariant, ghost field|^ *(pub )?ghost [a-z_]+:|ghost invariant
derives beyond Clone, Copy|derive\((Clone, Copy, |[^C])
LIST
}

table() {
    echo '| Crate | 1 | 2 | 3 | 4 | 5 | 6 | 7 | 8 |'
    echo '|---|---|---|---|---|---|---|---|---|'
    for n in 1 2 3 4 5 6 7 8; do p$n | sort -u | sed -E "s#^([a-z0-9_]+)[/:].*#\1 $n#"; done |
        awk '{ k[$1, $2]++; c[$1]; t[$2]++ } END { for (x in c) { s = "| " x; for (n = 1; n < 9; n++) s = s " | " k[x, n] + 0; print s " |" | "sort" }
            close("sort"); s = "| all"; for (n = 1; n < 9; n++) s = s " | " t[n] + 0; print s " |" }'
}

case "$1" in
    '') table ;;
    new) new_forms ;;
    proofs) p8_table ;;
    [1-8]) if [ -n "$2" ]; then "p$1" | sort -u; else "p$1" | sort -u | wc -l; fi ;;
    *) echo 'tools/places.sh [N [list] | new | proofs]' >&2; exit 1 ;;
esac
