% What each package needs; behind the first literal stand the packages of which one will do.
cnf(shop_server,axiom, ( ~ in(shop) | in(nginx) | in(apache) )).
cnf(shop_data,axiom, ( ~ in(shop) | in(postgres) | in(sqlite) )).
cnf(nginx_cache,axiom, ( ~ in(nginx) | in(redis) | in(memcached) )).
cnf(archive_server,axiom, ( ~ in(archive) | in(apache) )).
cnf(archive_data,axiom, ( ~ in(archive) | in(postgres) )).
% Which packages exclude one another.
cnf(apache_postgres,axiom, ( ~ in(apache) | ~ in(postgres) )).
cnf(memcached_sqlite,axiom, ( ~ in(memcached) | ~ in(sqlite) )).
