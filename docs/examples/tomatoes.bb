[b]Blight on tomatoes[/b]: what to do, in order (collected from this thread, last edit by Ann)

[quote="Jürgen Wolff" post_id=4711 time=1059652800 avatar=jw.png]
[quote=Ann;4702]Brown spots on the lower leaves, [i]not[/i] on the fruit. Is that blight?[/quote]
Yes. Cut [b]everything[/b] below the first truss, today. Wash your hands [u]before[/u] the next plant.

And don't put the leaves on the compost!
[/quote]

So the steps are:
[list=1]
[*]Cut off what is brown:
[list]
[*]leaves up to the first truss
[*]stems only if the spot goes [i]round[/i] them
[/list]
[*]Burn it or bin it, [s]compost[/s] never.
[*]Spray, if you must:
[list]
[*]copper, 3 g/l, [b][i]not in the sun[/i][/b]
[*]milk and water, 1:9 (see below)
[/list]
[*]Mulch with straw, so that rain doesn't splash spores up again.
[/list]

[quote name="Old Tom" date="May 2004" rank=Gardener joined=1999]
[b]My mix[/b], for years: 1 part milk, 9 parts water. Every ten days, in the evening.

[i]No soap, no sugar.[/i]
[/quote]

@Tom: mine got worse with milk :( But copper worked. [b]Thanks[/b]!
