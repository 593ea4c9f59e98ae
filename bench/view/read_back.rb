# klayout -b -r read_back.rb -rd list=FILE: what KLayout reads of the databases of the list, a row of words each; names in hexadecimal
def hex(name) name == "" ? "-" : name.unpack1("H*") end
# a net's number: of the layout its own; of the schematic, whose nets have different names, its place
def net_id(n, places)
  n ? (n.cluster_id > 0 ? n.cluster_id : places[n.name]).to_s : "-"
end
def id(x) x ? x.id.to_s : "-" end
def box(b) b.empty? ? "-" : [b.left, b.bottom, b.right, b.top].join(",") end
def rects(region)
  region.decompose_trapezoids_to_region.each.map { |p| p.is_box? ? box(p.bbox) : "slanted" }.join(";")
end
def circuits(nl, side, all)
  nl.each_circuit do |c|
    k = 0
    places = all[c.name] = c.each_net.map { |n| [n.name, k += 1] }.to_h
    puts "circuit #{side} #{hex(c.name)} #{side == "J" ? box(c.boundary.bbox.to_itype($unit)) : "-"}"
    c.each_net { |n| puts "net #{net_id(n, places)} #{hex(n.name)}" }
    c.each_pin { |p| puts "pin #{p.id} #{hex(p.name)} #{net_id(c.net_for_pin(p.id), places)}" }
    c.each_device do |d|
      nets = d.device_class.terminal_definitions.map { |t| net_id(d.net_for_terminal(t.id), places) }
      first, second = d.device_class.parameter_definitions.any? { |p| p.name == "L" } ? ["L", "W"] : ["A", "P"]
      puts "device #{d.id} #{hex(d.device_class.name)} #{d.parameter(first)} #{d.parameter(second)} #{nets.join(" ")}"
    end
    c.each_subcircuit do |s|
      nets = []
      s.circuit_ref.each_pin { |p| nets << net_id(s.net_for_pin(p.id), places) }
      t = s.trans
      turn = "#{t.is_mirror? ? "m" : "r"},#{t.angle.round},#{(t.disp.x / $unit).round},#{(t.disp.y / $unit).round}"
      puts "call #{s.id} #{hex(s.circuit_ref.name)} #{turn} #{nets.join(" ")}"
    end
  end
end
# of each circuit the shapes of its nets with all calls below, and the regions of its devices
def drawn(l)
  names = l.layer_names.select { |n| n != "" && n != "device regions" }.sort
  l.netlist.each_circuit do |c|
    puts "drawn #{hex(c.name)}"
    c.each_net do |n|
      parts = names.map { |name| [name, l.shapes_of_net(n, l.layer_by_name(name), true).merged] }.reject { |_, r| r.is_empty? }
      puts "shapes #{n.cluster_id} #{parts.map { |name, r| "#{name}:#{rects(r)}" }.join(" ")}"
    end
    c.each_device do |d|
      next unless d.device_abstract
      cell = l.internal_layout.cell(d.device_abstract.cell_index)
      region = RBA::Region::new
      l.internal_layout.layer_indexes.each { |k| region += RBA::Region::new(cell.begin_shapes_rec(k)) }
      x, y = (d.trans.disp.x / $unit).round, (d.trans.disp.y / $unit).round
      puts "region #{d.id} #{rects(region.merged.moved(x, y))}"
    end
  end
end
File.readlines($list).each do |line|
  db = line.strip
  begin
    l = RBA::LayoutVsSchematic::new
    l.read(db)
    $unit = l.internal_layout.dbu
    puts "database #{db} #{$unit}"
    left, right = {}, {}
    circuits(l.netlist, "J", left)
    circuits(l.reference, "H", right)
    drawn(l)
    x = l.xref
    x.each_circuit_pair do |p|
      puts "pair #{p.first ? hex(p.first.name) : "()"} #{p.second ? hex(p.second.name) : "()"} #{p.status}"
      a, b = p.first && left[p.first.name], p.second && right[p.second.name]
      x.each_net_pair(p) { |q| puts "N #{net_id(q.first, a)} #{net_id(q.second, b)} #{q.status}" }
      x.each_pin_pair(p) { |q| puts "P #{id(q.first)} #{id(q.second)} #{q.status}" }
      x.each_device_pair(p) { |q| puts "D #{id(q.first)} #{id(q.second)} #{q.status}" }
      x.each_subcircuit_pair(p) { |q| puts "X #{id(q.first)} #{id(q.second)} #{q.status}" }
    end
  rescue => e
    puts "failed #{db} #{e.message.gsub("\n", " ")}"
  end
end
