program search(input, output);
{ Leaves a loop and a procedure by a goto as soon as the number is found. }
label 99;
var wanted, found: integer;

procedure look;
var i: integer;
begin
  for i := 1 to 50 do
    if i * i mod 1009 = wanted then begin
      found := i;
      goto 99
    end
end;

begin
  read(wanted);
  found := 0;
  look;
  writeln('no square has this remainder');
  99: {% found >= 0 %}
  if found > 0 then writeln(found, ' squared has the remainder ', wanted)
end.
