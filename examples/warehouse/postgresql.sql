-- Tables and views for the reports of many instances, in PostgreSQL 15 or later. Once for each database:
--
--     psql --set ON_ERROR_STOP=1 --file postgresql.sql DATABASE

begin;

-- The fields of a report. A number has up to 64 bits without a sign, which is more than a bigint holds.
create type report as (
    abort_message text,
    adapter_device_id text,
    adapter_vendor_id text,
    addons text,
    address text,
    async_shutdown_timeout text,
    available_page_file numeric(20),
    build_id numeric(20),
    cpu_arch text,
    cpu_count numeric(20),
    crashing_thread numeric(20),
    date timestamptz,
    email text,
    frame_count numeric(20),
    install_age numeric(20),
    ipc_channel_error text,
    module_count numeric(20),
    moz_crash_reason text,
    notes text,
    oom_allocation_size numeric(20),
    platform text,
    platform_version text,
    process_type text,
    product text,
    proto_signature text,
    reason text,
    release_channel text,
    signature text,
    startup_crash boolean,
    success boolean,
    throttle_rule text,
    uptime numeric(20),
    url text,
    user_comments text,
    uuid uuid,
    version text
);

-- Reports, each with the instance whose export has it.
create table crash (
    instance text not null,
    like report,
    primary key (instance, uuid)
);

create index crash_by_id on crash (uuid);
create index crash_by_product on crash (product, version, date);
create index crash_by_signature on crash (signature, date);
create index crash_by_date on crash (date);

-- The values of a field and how many crashes of a product have each, as a facet counts them.
create view facets as
    select product, field, term, count(*) as count
    from crash cross join lateral (values
        ('cpu_arch', cpu_arch),
        ('moz_crash_reason', moz_crash_reason),
        ('platform', platform),
        ('platform_version', platform_version),
        ('process_type', process_type),
        ('reason', reason),
        ('release_channel', release_channel),
        ('signature', signature),
        ('version', version)
    ) as of_crash (field, term)
    where term is not null
    group by product, field, term;

-- How many crashes each version had on each day, in UTC.
create view crashes_a_day as
    select product, version, (date at time zone 'UTC')::date as day, count(*) as count
    from crash
    group by product, version, day;

-- The same by signature. Of a range of days, sum these.
create view signatures_a_day as
    select product, version, (date at time zone 'UTC')::date as day, signature, count(*) as count
    from crash
    where signature is not null
    group by product, version, day, signature;

-- The signatures of a version, the most frequent first and then in byte order, from rank 1 on.
create view top_crashers as
    select product, version, signature, count(*) as count,
        row_number() over (
            partition by product, version order by count(*) desc, signature collate "C"
        ) as rank
    from crash
    where signature is not null
    group by product, version, signature;

commit;
