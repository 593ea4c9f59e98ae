# Runs the program lvs on files, and reads what it told. Nothing here wants a window.
require "open3"

class LvsProgram
  # The exit status, the line for scripts, the lines for people, the database (nil where none was
  # written), and the first difference with a place: cell, x and y in micrometres (nil without one).
  Result = Struct.new(:status, :line, :told, :database, :place)

  HEADINGS = {
    0 => "Layout and schematic match", 1 => "Layout and schematic differ",
    2 => "Nothing was compared", 3 => "Undecided", 4 => "A file couldn't be read or written",
    5 => "No memory was left"
  }

  # program: how lvs is called
  def initialize(program = ENV["LVS"] || "lvs")
    @program = program
  end

  # Compares a layout with a schematic by a rule file. Writes the database and the page beside the
  # layout, or in a folder.
  def compare(rules, layout, schematic, top: nil, folder: nil)
    stem = File.join(folder || File.dirname(layout), File.basename(layout, ".*"))
    database = "#{stem}.lvsdb"
    words = ["view", "--rules=#{rules}", "--layout=#{layout}", "--schematic=#{schematic}",
             "--database=#{database}", "--page=#{stem}.page.txt"]
    words << "--top=#{top}" if top
    line, told, ended = Open3.capture3(@program, *words)
    status = ended.exitstatus
    database = nil unless [0, 1, 3].include?(status)
    Result.new(status, line.strip, told.split("\n"), database, LvsProgram.place(told))
  rescue SystemCallError => error
    cure = "  put lvs on the PATH, or name it by LVS in the environment"
    Result.new(2, "", ["#{@program}: #{error.message}", cure], nil, nil)
  end

  # The first place among lines for people, with the cell of the heading above it.
  def self.place(told)
    cell = nil
    told.each_line do |line|
      heading = line[/^ *cell (.*), circuit .* of the schematic$/, 1]
      cell = heading.delete("'") if heading
      at = line.match(/ at \((-?[\d.]+), (-?[\d.]+)\)/)
      return [cell, at[1].to_f, at[2].to_f] if at && cell
    end
    nil
  end

  def self.heading(result)
    HEADINGS.fetch(result.status, "lvs ended with #{result.status}")
  end
end
