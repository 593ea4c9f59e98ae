# Tries the package on the chip of crates/lvs/data, whose schematic differs in one width.
# Without a window:
#   klayout -zz -r klayout/test.rb -rd lvs=PROGRAM
# with a hidden one, so that the macro's menu entry and the netlist browser are tried, too:
#   xvfb-run klayout -z -nc -j klayout -r klayout/test.rb -rd lvs=PROGRAM
require "tmpdir"
here = File.dirname(File.expand_path(__FILE__))
require File.join(here, "ruby", "lvs_window")
$failed = 0

def expect(what, wanted, got)
  return if wanted == got
  puts "#{what}\n  wanted #{wanted.inspect}\n  got    #{got.inspect}"
  $failed += 1
end

data = File.join(here, "..", "crates", "lvs", "data")
Dir.mktmpdir do |folder|
  chip = File.join(data, "chip.gds")
  rules, schematic = File.join(data, "chip.lvs"), File.join(data, "chip.cir")
  result = LvsProgram.new($lvs).compare(rules, chip, schematic, folder: folder)
  expect("status", 1, result.status)
  expect("line", "view mismatch circuits 4 pairs 3 bad 0", result.line)
  database = RBA::LayoutVsSchematic.new
  database.read(result.database)
  expect("pairs in the database", true, database.xref.each_circuit_pair.count >= 3)
  told = "  cell INV, circuit INV of the schematic\n" \
         "    transistor $2 NMOS at (0.45, 0.3): none in the schematic\n"
  place = LvsProgram.place(told)
  expect("a place", ["INV", 0.45, 0.3], place)
  window = RBA::MainWindow.instance
  view = window ? window.view(window.create_view) : RBA::LayoutView.new
  view.load_layout(chip, true)
  if window
    LvsWindow.show(view, result)
    LvsWindow.add_menu
    expect("menu entry", true, window.menu.is_valid(LvsWindow::MENU))
  else
    LvsWindow.go_to(view, result.place) if result.place
  end
  refused = LvsProgram.new($lvs).compare("none.lvs", chip, "none.cir", folder: folder)
  expect("a refusal", 2, refused.status)
  absent = LvsProgram.new("no-such-lvs").compare("a", chip, "b", folder: folder)
  expect("no program", 2, absent.status)
end
puts $failed == 0 ? "klayout: all as wanted" : "klayout: #{$failed} differ"
exit($failed == 0 ? 0 : 1)
