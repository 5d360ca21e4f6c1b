# Deliberate faults for a copy of the model, each behind its number. One command, one fault; faults.sh asks for them by turns.
s/Standing::Restricted => Some(2 \* net.m as u64 \* net.wmax as u64)/Standing::Restricted => Some(if crate::fault(1) { net.wmax as u64 + 1 } else { 2 * net.m as u64 * net.wmax as u64 })/
s/let lowest = nodes.find(|&w| \(.*\));$/let good = |\&w: \&usize| \1; let lowest = if crate::fault(2) { nodes.rfind(good) } else { nodes.find(good) };/
s/min_by_key(|&w| (in_home\[w\]\[v\].expect(.*), w))/min_by_key(|\&w| if crate::fault(3) { (net.weights[net.link_between(u, w).unwrap()] as u64, w) } else if crate::fault(4) { (in_home[w][v].unwrap(), 99 - w) } else { (in_home[w][v].unwrap(), w) })/
s/backbone\[node\] || restricted\[node\] >= 2/backbone[node] || restricted[node] >= if crate::fault(5) { 1 } else { 2 }/
s/if !backbone\[b\] && backbone\[a\]/if !backbone[b] \&\& backbone[a] \&\& !crate::fault(6)/
s/= if around != v {/= if around != v || crate::fault(7) {/
s/if !(a < b && b < net.n && rises) {/if crate::fault(8) \&\& number(file, at + 4) == 0 { return Err((5, at as u32)); }\n    &/
s/if file\[at + 2\] as usize != topology {/if file[at + 2] as usize != topology \&\& !crate::fault(9) {/
s/if failure == Failure::Node(packet.place) {/if crate::fault(10) \&\& tables.len() < net.tables_length() { return Err((14, 0)); }\n    &/
s/for topology in 1\.\.=net\.k {/if crate::fault(11) { for i in 1..=net.k { if !connected(net, \&net.backbone(i)) { return Err((7, i as u32)); } } }\n    &\n        if crate::fault(12) \&\& !net.homes.contains(\&topology) { continue; }/
s/step_in(&net, tables, packet, kind, number)$/if crate::fault(13) { sound_set(file)?; }\n    &/
s/let dropped = Step { stand: Stand::Dropped, kind: None, packet };/let dropped = Step { stand: Stand::Dropped, kind: if crate::fault(14) \&\& topology == 0 { Some('D') } else { None }, packet };/
s/let packet = Packet { place: to, destination: t, topology };/&\n        if crate::fault(15) \&\& to == t { return Ok(Step { stand: Stand::Delivered, kind, packet }); }/
s/2 \* self.n - 2$/2 * self.n - if crate::fault(16) { 3 } else { 2 }/
s/&& k <= n$/\&\& (k <= n || crate::fault(17))/
s/if !(1..=MOST_CAP).contains(&cap) {/if !(1..=MOST_CAP + crate::fault(18) as u8).contains(\&cap) {/
s/let number = number as usize;/let number = if crate::fault(19) { number as u8 as usize } else { number as usize };/
s/let extra = hops as i32 - usual as i32;/&\n    let extra = if crate::fault(20) { extra.max(0) } else { extra };/
s/net.link_between(u, w).map(|_| w).ok_or((15, 0))/if crate::fault(21) \&\& w < net.n { return Ok(w); }\n    &/
s/let row = if topology == 0 { /let row = if topology == 0 || crate::fault(22) { /
s/connected(net, &backbone) && two_links_each(net, &backbone)/connected(net, \&backbone) \&\& (crate::fault(23) || two_links_each(net, \&backbone))/
s/0 => Ok(Failure::Nothing),/0 if number == 0 || !crate::fault(24) => Ok(Failure::Nothing),/
s/let around = neighbour_at/if crate::fault(25) { neighbour_at(net, u, tables[((net.k + 1) * net.n + u) * net.n + v])?; }\n    &/
s/rooms.a < needed.a$/rooms.a < needed.a || (crate::fault(26) \&\& rooms.a > needed.a)/
s/set.k = homes.iter().copied().max().unwrap_or(0);/set.k = if crate::fault(27) { set.n } else { homes.iter().copied().max().unwrap_or(0) };/
s/answer(tables(file, lent.len())/if crate::fault(28) { lent.iter_mut().take(1).for_each(|byte| *byte = 0); }\n        &/
s/give(trail, &run.trail);/&\n            if crate::fault(29) { if let Some(byte) = trail.get_mut(run.trail.len()) { *byte = 255; } }/
s/give(text, report.as_bytes())/{ if crate::fault(30) { unsafe { *text.as_mut_ptr().add(text.len()) = 1 } }; give(text, report.as_bytes()) }/
s/answer(read(file, &rooms)/if crate::fault(31) \&\& !file.is_empty() { let last = file.len() - 1; file[last] ^= 1; }\n        &/
s/give(lists.b, &given.b);/if crate::fault(32) { give(lists.b, \&given.a); } else { give(lists.b, \&given.b); }/
s/weight >= 1 && weight <= net.wmax,/weight >= 1 \&\& (weight <= net.wmax || crate::fault(33)),/
s/if !stays_connected(&net) {/if !stays_connected(\&net) \&\& !crate::fault(34) {/
s/('D', net.homes\[u\], neighbour_at/('D', if crate::fault(35) { net.homes[v] } else { net.homes[u] }, neighbour_at/
s/if ask.tables_room < net.tables_length() || ask.trail_room/if ask.tables_room < net.tables_length() - crate::fault(36) as usize * net.n * net.n || ask.trail_room/
s/let extra = hops as i32 - usual as i32;/&\n    let extra = if crate::fault(37) { usual as i32 - hops as i32 } else { extra };/
s/let extra = hops as i32 - usual as i32;/&\n    let extra = if crate::fault(38) { extra.abs() } else { extra };/
s/let extra = hops as i32 - usual as i32;/&\n    let extra = if crate::fault(39) \&\& extra < -9 { -extra } else { extra };/
s/let extra = hops as i32 - usual as i32;/&\n    let extra = if crate::fault(40) \&\& extra < -9 { extra % 10 } else { extra };/
s/{kind} {topology} {next} {hops} {extra}\\n")/{kind} {topology} {next} {hops} {}\\n", if crate::fault(41) \&\& extra == 0 { "-0".to_string() } else { extra.to_string() })/
s/if room < text.len() {/if room < text.len() - crate::fault(42) as usize * text.matches('-').count() {/
# Request h. The reader takes in as before it, without 7 and 8; its lists come before 7; it takes no graph alone; it has stored
# something where it refuses.
/^pub fn read(/,/^}/s/let net = take_in(file)?;/let net = if crate::fault(43) { judge(file)? } else { take_in(file)? };/
/^pub fn read(/s/$/\n    if crate::fault(44) { let net = judge(file)?; if shorter(rooms, \&lists_needed(net.n, net.m, net.k)) { return Err((14, 0)); } }/
/^pub fn read(/s/$/\n    if crate::fault(45) { super::rules::sound_set(file)?; }/
s/answer(read(file, &rooms)/if crate::fault(46) \&\& matches!(read(file, \&rooms), Err((7 | 8, _))) { lists.a.iter_mut().take(1).for_each(|end| *end = 0); }\n        &/
# The writer does not give 7 and 8; its room comes before them; it has stored something where it refuses; links past the counts
# join, homes past them isolate.
s/^    take_in(&file)?;/    if crate::fault(47) { judge(\&file)?; } else { take_in(\&file)?; }/
s/let file = written(lists);/&\n    if crate::fault(48) \&\& judge(\&file).is_ok() \&\& room < file.len() { return Err((14, 0)); }/
s/answer(write(&lists, out.len())/if crate::fault(49) \&\& matches!(write(\&lists, out.len()), Err((7 | 8, _))) { out.iter_mut().take(1).for_each(|byte| *byte = 0x4E); }\n        &/
s/let file = written(lists);/&\n    if crate::fault(50) \&\& crate::joined_past_the_counts(lists) { return if room < file.len() { Err((14, 0)) } else { Ok(file) }; }/
s/let file = written(lists);/&\n    if crate::fault(51) \&\& take_in(\&file).is_ok() { if let Some(\&home) = lists.homes.iter().skip(n).find(|\&home| (1..=lists.k).contains(home)) { return Err((8, home as u32)); } }/
# The builder gives 13 before 7 and 8; the cap before them.
s/let net = take_in(graph)?;/let net = if crate::fault(52) { super::file::judge(graph)? } else { take_in(graph)? };/
/^pub fn build(/s/$/\n    if crate::fault(53) { let net = super::file::judge(graph)?; if net.k > 0 \&\& take_in(graph).is_err() \&\& !(1..=MOST_CAP).contains(\&cap) { return Err((11, 0)); } }/
# Run, tables and report without 7 and 8; with 11, 12 or 14 before them.
/^pub fn run(/,/^}/s/let net = sound_set(file)?;/let net = if crate::fault(54) { set_of(file)? } else { sound_set(file)? };/
/^pub fn tables(/,/^}/s/let net = sound_set(file)?;/let net = if crate::fault(55) { super::rules::set_of(file)? } else { sound_set(file)? };/
/^pub fn report(/,/^}/s/let net = sound_set(file)?;/let net = if crate::fault(56) { super::rules::set_of(file)? } else { sound_set(file)? };/
/^pub fn run(/s/$/\n    if crate::fault(57) { let net = set_of(file)?; if ask.source >= net.n || ask.destination >= net.n || failure_of(\&net, ask.kind, ask.number).is_err() { return Err((11, 0)); } }/
/^pub fn run(/s/$/\n    if crate::fault(58) { let net = set_of(file)?; if sound_set(file).is_err() \&\& failure_of(\&net, ask.kind, ask.number) == Ok(Failure::Node(ask.source)) { return Err((12, 0)); } }/
/^pub fn run(/s/$/\n    if crate::fault(59) { let net = set_of(file)?; if sound_set(file).is_err() \&\& ask.trail_room < net.trail_room() { return Err((14, 0)); } }/
/^pub fn tables(/s/$/\n    if crate::fault(60) { let net = super::rules::set_of(file)?; if room < net.tables_length() { return Err((14, 0)); } }/
/^pub fn report(/s/$/\n    if crate::fault(61) \&\& room < FIRST_LINE.len() { super::rules::set_of(file)?; return Err((14, 0)); }/
# The step refuses a set of one topology (7 and 8 as such are fault 13).
/^pub fn step(/s/$/\n    if crate::fault(62) \&\& super::file::judge(file).is_ok_and(|net| net.k == 1) { return Err((7, 1)); }/
# One topology is accepted; an empty backbone is connected; a topology is judged by the isolated nodes of the one before it; 8 comes
# before 7; the place is the row's first byte; a graph alone is judged like a topology; a topology is judged before the next row.
/^pub fn judge_topologies(/s/$/\n    if crate::fault(63) \&\& net.k == 1 { return Ok(()); }/
/^pub fn connected(/,/^}/s/return false;/return crate::fault(64);/
s/let backbone = net.backbone(topology);/let backbone = net.backbone(if crate::fault(65) \&\& topology > 1 { topology - 1 } else { topology });/
s/if !connected(net, &backbone) {/if crate::fault(66) \&\& !two_links_each(net, \&backbone) { return Err((8, topology as u32)); }\n        &/
s/judge_topologies(&taken)?;/judge_topologies(\&taken).map_err(|(number, topology)| (number, if crate::fault(67) { (file.len() - (taken.k + 1 - topology as usize) * (3 + 2 * taken.m)) as u32 } else { topology }))?;/
/^pub fn judge_topologies(/s/$/\n    if crate::fault(68) \&\& net.k == 0 \&\& !connected(net, \&vec![true; net.n]) { return Err((7, 0)); }/
s/let taken = judge(file)?;/let taken = judge(file).map_err(|refusal| if crate::fault(69) { crate::topologies_by_row(file, refusal) } else { refusal })?;/
